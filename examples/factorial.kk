fun fact(n: int32): int32
  if n == 0 then 1 else n * fact(n - 1)
fun main()
  println(fact(5))
