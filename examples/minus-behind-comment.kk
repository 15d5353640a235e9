fun main()
  val x = 3
  /* c */ -1
  println(x)
