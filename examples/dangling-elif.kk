fun f(a: int32, b: int32): int32
  if a == 0 then if b == 0 then 1 else 2 elif b == 0 then 3 else 4
fun main()
  println(f(0, 0))
  println(f(0, 1))
  println(f(1, 0))
  println(f(1, 1))
