fun f(x: t'): int32 { 1 }
fun main() { () }
