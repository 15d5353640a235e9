fun tell(n: int32): console int32
  println(n)
  n
fun three(a: int32, b: int32, c: int32): int32
  a * 100 + b * 10 + c
fun main()
  println(three(tell(1), tell(2), tell(3)))
  println(tell(4) - tell(5))
