fun main() { 1.f(y) }
fun f(a: int32): () { println(a) }
