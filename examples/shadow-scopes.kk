fun x(x: int32): int32
  val x = x * 10 + ({ val x = x + 1; x })
  x - 1
fun main()
  val main = 4
  println(x(main))
  println(main.x)
