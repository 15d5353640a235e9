fun say(n: int32): console bool
  println(n)
  n > 1
fun main()
  if say(1) && say(2) || say(3) then println(4) else println(5)
