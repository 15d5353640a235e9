type signal { Red; Red }
fun main() { println(1) }
