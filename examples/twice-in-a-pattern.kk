type pair { Pair(a: int32, b: int32) }
fun same(p: pair): int32 { match p { Pair(x, x) -> x } }
fun main() { println(1) }
