fun main()
  val y = ({ val a = 1
     ; a + 1 })
  if y == 3 then
      println("three")
    ; println("again")
  println(
    y
  )
