type box<a> { Box(v: a) }
fun f(b: box): int32 { 1 }
fun main() { println(1) }
