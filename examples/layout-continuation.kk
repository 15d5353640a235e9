fun main()
  println(1
    + 2)
  println(3 +
4)
  val x = 5
  println(x
)
