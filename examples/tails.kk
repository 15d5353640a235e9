type list<a> { Nil; Cons(head: a, tail: list<a>) }
fun build(n: int32): list<int32>
  if n == 0 then Nil else Cons(n, build(n - 1))
fun len(xs: list<a>): int32
  match xs
    Nil -> 0
    Cons(_, xx) -> 1 + len(xx)
fun tails(xs: list<int32>): list<list<int32>> { match xs { Nil -> Nil; Cons(_, xx) -> Cons(xs, tails(xx)) } }
fun main() { match tails(build(2)) { Cons(a, _) -> println(len(a)); Nil -> println(0) } }
