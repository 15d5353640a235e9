fun main() { println(if True then 1 else False) }
