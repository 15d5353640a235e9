fun sum(p0: int32, p1: int32, p2: int32, p3: int32, p4: int32, p5: int32, p6: int32, p7: int32, p8: int32): int32 { p0 }
fun main() { println(1) }
