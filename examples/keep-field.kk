type two { P(a: int32, b: int32) }
fun keep(p: two): two { match p { P(x, y) -> { val x = 9; P(x, y) } } }
fun main() { match keep(P(1, 2)) { P(a, b) -> println(a * 10 + b) } }
