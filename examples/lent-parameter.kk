type list<a> { Nil; Cons(head: a, tail: list<a>) }
fun build(n: int32): list<int32>
  if n == 0 then Nil else Cons(n, build(n - 1))
fun len(xs: list<a>): int32
  match xs
    Nil -> 0
    Cons(_, xx) -> 1 + len(xx)
fun sum(xs: list<int32>): int32
  match xs
    Nil -> 0
    Cons(x, xx) -> x + sum(xx)
fun f(xs: list<int32>): int32
  match xs
    Nil -> 0
    Cons(x, _) -> sum(build(x))
fun main()
  println(f(Cons(3, Nil)))
