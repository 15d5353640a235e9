fun f(n: int32): int32
  if n > 0 then
    if n > 1 then
      println(n)
      2
    else 1
  else
    0
fun main()
  println(f(5))
  println(f(1))
  println(f(0))
