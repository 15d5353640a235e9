// Types that the text does not write: of an empty list, and of variables in patterns. `opposite` has operators in an `if`.
type list<a> { Nil; Cons(head: a, tail: list<a>) }
type pair<a,b> { Pair(left: a, right: b) }

fun length(xs: list<a>): int32
  match xs
    Nil -> 0
    Cons(_, more) -> 1 + length(more)

fun single(x: a): list<a>
  Cons(x, Nil)

fun before-seven(p: pair<a,int32>): list<a>
  match p
    Pair(x, 7) -> Cons(x, Nil)
    _ -> Nil

// `()` has one value, and no row looks at it.
fun told(done: ()): int32
  match done
    u -> 4

fun opposite(skip: bool): int32
  if !skip then ~read-byte() else 2

fun main()
  Nil
  println(length(Nil))
  println(length(single(True)))
  println(length(single(single(3))))
  println(length(before-seven(Pair(True, 7))))
  println(length(before-seven(Pair(single(1), 8))))
  println(told(()))
  println(opposite(True))
  println(opposite(False))
