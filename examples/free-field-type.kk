type box { Box(v: a) }
fun main() { println(1) }
