fun sum(p0: int32, p1: int32, p2: int32, p3: int32, p4: int32, p5: int32, p6: int32, p7: int32): int32 { p0 + p1 + p2 + p3 + p4 + p5 + p6 + p7 }
fun main() { println(sum(1, 2, 3, 4, 5, 6, 7, 8)) }
