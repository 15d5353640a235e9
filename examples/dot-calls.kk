fun add(a: int32, b: int32): int32 { a + b }
fun twice(a: int32): int32 { a + a }
fun main()
  println(1.add(2).twice)
  3.twice().println
  "done".println
