// Prints each byte of the input as a number, and -1 at its end.
fun echo(): console ()
  val b = read-byte()
  println(b)
  if b >= 0 then echo()

fun main()
  echo()
