// A parameter that is the value of a `val` is owned. What a match on that variable finds is not lent, so the tail call that is given the rest
// of the list makes the parameter of `second` owned too. So none of three cells is live where two more are built.
type list<a> { Nil; Cons(head: a, tail: list<a>) }
fun build(n: int32): list<int32>
  if n == 0 then Nil else Cons(n, build(n - 1))
fun sum(xs: list<int32>): int32
  match xs
    Nil -> 0
    Cons(x, xx) -> x + sum(xx)
fun second(xs: list<int32>): int32
  match xs
    Nil -> 0
    Cons(x, _) -> x + sum(build(2))
fun behind-first(xs: list<int32>): int32
  val ys = xs
  match ys
    Nil -> 0
    Cons(_, yy) -> second(yy)
fun main()
  println(second(build(3)))
  println(behind-first(build(3)))
