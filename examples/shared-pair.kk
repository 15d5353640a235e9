type list<a> { Nil; Cons(head: a, tail: list<a>) }
fun build(n: int32): list<int32>
  if n == 0 then Nil else Cons(n, build(n - 1))
fun len(xs: list<a>): int32
  match xs
    Nil -> 0
    Cons(_, xx) -> 1 + len(xx)
type pair { Pair(fst: list<int32>, snd: list<int32>) }
fun main()
  val s = Cons(1, Nil)
  match Pair(s, s)
    Pair(a, b) -> println(len(a) + len(b))
