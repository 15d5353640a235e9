// Ackermann's function at small numbers. The inner call is no tail call, so it needs a frame.
fun ackermann(m: int32, n: int32): int32
  if m == 0 then n + 1
  elif n == 0 then ackermann(m - 1, 1)
  else ackermann(m - 1, ackermann(m, n - 1))

fun main()
  println(ackermann(0, 0))
  println(ackermann(1, 2))
  println(ackermann(2, 3))
  println(ackermann(3, 3))
