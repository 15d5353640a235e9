type wrap<a,b> { Wrap(l: a, r: b) }
fun grow(n: int32, x: a): int32 { if n == 0 then 0 else grow(n - 1, Wrap(x, x)) }
fun main() { println(grow(3, 0)) }
