fun down(n: int32): int32
  if n == 0 then 0 else 1 + down(n - 1)
fun main()
  println(down(4095))
