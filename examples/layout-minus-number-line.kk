fun main()
  val x = 10
    -3
  println(x)
