type signal { Red }
type signal { Green }
fun main() { println(1) }
