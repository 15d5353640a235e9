// How many of three are true.
fun one(b: bool): int32
  match b
    True -> 1
    False -> 0

fun main()
  println(one(True) + one(1 < 0) + one(!False))
