type wide { Wide(a: int32, b: int32, c: int32, d: int32, e: int32, f: int32) }
fun sum(w: wide): int32 { match w { Wide(a, b, c, d, e, f) -> a + 10 * b + 100 * c + 1000 * d + 10000 * e + 100000 * f } }
fun main() { println(sum(Wide(1, 2, 3, 4, 5, 6))) }
