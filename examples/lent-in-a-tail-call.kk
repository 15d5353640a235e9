// The rest of a lent list is lent to a tail call. So `main` holds the whole list of three cells to the end of `last`, where two more are built.
type list<a> { Nil; Cons(head: a, tail: list<a>) }
fun build(n: int32): list<int32>
  if n == 0 then Nil else Cons(n, build(n - 1))
fun sum(xs: list<int32>): int32
  match xs
    Nil -> 0
    Cons(x, xx) -> x + sum(xx)
fun last(xs: list<int32>): int32
  match xs
    Nil -> sum(build(2))
    Cons(_, xx) -> last(xx)
fun main()
  println(last(build(3)))
