type box { Box(v: int) }
fun main() { println(1) }
