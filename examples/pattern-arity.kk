type box { Box(v: int32) }
fun main() { match Box(1) { Box(x, y) -> () } }
