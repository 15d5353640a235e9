fun main() { f(1) }
