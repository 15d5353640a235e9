type list<a> { Nil; Cons(head: a, tail: list<a>) }
fun build(n: int32): list<int32>
  if n == 0 then Nil else Cons(n, build(n - 1))
fun len(xs: list<a>): int32
  match xs
    Nil -> 0
    Cons(_, xx) -> 1 + len(xx)
fun upto(n: int32, acc: list<int32>): list<int32>
  if n == 0 then acc else upto(n - 1, Cons(n, acc))
fun main()
  match upto(60000, Nil)
    Cons(x, _) -> println(x)
    Nil -> println(0)
