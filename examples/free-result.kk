fun f(x: a): int32 { x }
fun main() { println(1) }
