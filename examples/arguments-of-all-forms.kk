fun two(): int32 2
fun f(u: (), b: bool, n: int32, m: int32): console () if b then println(n + m) else ()
fun main() f((), True, two(), (-3))
