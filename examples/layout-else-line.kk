fun sign(n: int32): int32
  if n < 0
  then -1
  elif n == 0
  then 0
  else 1
fun main()
  println(sign(-5))
  println(sign(0))
  println(sign(7))
