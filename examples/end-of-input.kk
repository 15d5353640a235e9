// Behind the end of the input each read gives -1, as often as it is asked.
fun main()
  println(read-byte())
  println(read-byte())
  println(read-byte() + read-byte())
