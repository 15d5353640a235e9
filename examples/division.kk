fun main() { println(7 / 0); println(7 % 0); println(-7 / 2); println(-7 % 2) }
