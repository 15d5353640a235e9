fun main() { println(y) }
