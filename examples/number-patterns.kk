fun name(n: int32): ()
  match n % 4
    -1 -> println("minus one")
    0 -> println("none")
    1 -> println("one")
    _ -> println("more")

fun main()
  name(-5)
  name(8)
  name(9)
  name(11)
