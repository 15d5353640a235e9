fun f(): int32 { 1 }
fun f(): int32 { 2 }
fun main() { println(f()) }
