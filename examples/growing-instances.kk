type list<a> { Nil; Cons(head: a, tail: list<a>) }
fun grow(n: int32, x: list<a>, y: list<list<a>>): int32 { if n == 0 then 0 else grow(n - 1, y, Nil) }
fun main() { println(grow(3, Nil, Nil)) }
