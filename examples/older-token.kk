type box { Box(v: int32) }
fun h(p: box, q: box): box { match p { Box(x) -> match q { Box(y) -> Box(x + y) } } }
fun get(b: box): int32 { match b { Box(v) -> v } }
fun main() { val s = Box(2); match h(Box(1), s) { Box(r) -> println(r + get(s)) } }
