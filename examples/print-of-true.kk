fun main() { println(True) }
