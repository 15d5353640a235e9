fun main()
  println(3 -1)
  println(3
    -1)
