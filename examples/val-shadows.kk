fun main()
  val x = 1
  val x = x + 1
  if x == 2 then { val x = 10; println(x) }
  println(x)
  val _ = x
  println(x * 2)
