fun main()
  val y = { val a = 2
            a * a }
  if y == 4 then { println(y); println(5)
  }
  println(6)
