fun loop(n: int32): div () { loop(n + 1) }
fun main() { loop(0) }
