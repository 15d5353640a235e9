// Arguments are computed from left to right, and each read takes one byte.
fun pair(first: int32, second: int32): console ()
  println(first)
  println(second)

fun main()
  pair(read-byte(), read-byte())
  println(read-byte() - read-byte())
