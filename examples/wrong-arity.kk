fun f(a: int32): int32 { a }
fun main() { println(f(1, 2)) }
