type box { Box(v: int32) }
fun main() { match Box { _ -> () } }
