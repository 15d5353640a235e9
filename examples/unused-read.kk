// A read whose value nobody uses still takes its byte.
fun main()
  read-byte()
  val _ = read-byte()
  println(read-byte())
