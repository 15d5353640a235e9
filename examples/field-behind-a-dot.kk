type box { Box(v: int32) }
fun f(b: box): int32 { b.v }
fun main() { println(1) }
