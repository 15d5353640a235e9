fun f() { 1 }
fun main() { println(1) }
