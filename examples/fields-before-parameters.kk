type wide { Wide(a: int32, b: int32, c: int32, d: int32, e: int32, f: int32, g: int32) }
fun f(a: int32, b: int32, c: int32, d: int32, e: int32, f: int32, g: int32, h: int32, i: int32): int32 { a }
fun main() { println(1) }
