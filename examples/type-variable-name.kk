fun f(x: t1): int32 { 1 }
fun main() { () }
