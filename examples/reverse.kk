type list<a> { Nil; Cons(head: a, tail: list<a>) }
fun build(n: int32): list<int32>
  if n == 0 then Nil else Cons(n, build(n - 1))
fun len(xs: list<a>): int32
  match xs
    Nil -> 0
    Cons(_, xx) -> 1 + len(xx)
fun rev(xs: list<a>, acc: list<a>): list<a>
  match xs
    Cons(x, xx) -> rev(xx, Cons(x, acc))
    Nil -> acc
fun main()
  match rev(build(3), Nil)
    Cons(x, _) -> println(x)
    Nil -> println(0)
