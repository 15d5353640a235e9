type box { Box(v: int32) }
fun twice(n: int32): int32
  match Box(n + 1)
    Box(m) -> m * 2
fun g(b: box): box
  match b
    Box(v) -> Box(twice(v))
fun main()
  match g(Box(5))
    Box(r) -> println(r)
