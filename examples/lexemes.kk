// A `-` in front of a digit belongs to the number where no operand stands before it on its line. In a string no comment begins.
fun main()
  val x = 5
  println(-1_0)
  println(x -1)
  println((3)-1)
  println(1--1)
  val y = if True then -1 else 1
  println(y) // b /* c
  println("//")
  println("/*")
  val z = match x { _A_ -> 6 }
  println(z) /*/ */
