fun main() { println(2147483647 + 1); println(-2147483648 / -1) }
