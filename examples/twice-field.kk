type pair { Pair(a: int32, a: int32) }
fun main() { println(1) }
