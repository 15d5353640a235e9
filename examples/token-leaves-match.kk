type box { Box(v: int32) }
fun j(b: box): box { val c = b; val t = match c { Box(v) -> v }; Box(t) }
fun main() { match j(Box(1)) { Box(r) -> println(r) } }
