fun main()
  val x = 10
    - 3
    * 2
  println(x)
