fun f(a: int32): int32 { if a then 1 else 2 }
fun main() { println(f(1)) }
