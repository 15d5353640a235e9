fun main()
  println(010)
  println(-010)
