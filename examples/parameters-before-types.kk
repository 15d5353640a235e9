fun main() { 1 }
fun f(a: int32, b: int32, c: int32, d: int32, e: int32, g: int32, h: int32, i: int32, j: int32): bool { 0 }
