type pair<a,a> { Pair(x: a, y: a) }
fun main() { println(1) }
