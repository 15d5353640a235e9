// The greatest number whose square is not above another one, by halving an interval.
fun search(n: int32, low: int32, high: int32): int32
  if high - low <= 1 then low
  else
    val middle = low + (high - low) / 2
    if middle <= n / middle then search(n, middle, high) else search(n, low, middle)

fun root(n: int32): int32
  if n < 1 then 0 else search(n, 1, 46341)

fun main()
  println(root(0))
  println(root(24))
  println(root(25))
  println(root(1000000))
  println(root(2147483647))
