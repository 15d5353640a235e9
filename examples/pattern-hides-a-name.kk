fun main()
  val n = 1
  val m = match 7 { n -> n + 1 }
  println(n)
  println(m)
