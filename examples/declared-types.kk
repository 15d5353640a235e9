// What docs/language.md says of declared types, form by form.
type signal { Red; Amber; Green }

type list<a>
  Nil
  Cons(head: a, tail: list<a>)

// Two types that name each other, the one that is declared further down first; and two fields of one name.
type tree { Leaf(value: int32); Node(value: int32, below: forest) }
type forest { None; Trees(first: tree, rest: forest) }

type pair<a,b> { Pair(left: a, right: b) }

fun next(s: signal): signal
  match s
    Red -> Green
    Amber -> Red
    Green -> Amber

fun number(s: signal): int32
  match s { Red -> 0; Amber -> 1; _ -> 2 }

fun from(n: int32, end: int32): list<int32>
  if n > end then Nil() else Cons(n, from(n + 1, end))

fun second(xs: list<int32>, none: int32): int32
  match xs
    Cons(_, Cons(x, _)) -> x
    _ -> none

fun total(t: tree): int32
  match t
    Leaf(value) -> value
    Node(value, below) -> value + total-of-all(below)

fun total-of-all(f: forest): int32
  match f
    None() -> 0
    Trees(t, more) -> t.total + total-of-all(more)

fun swapped(p: pair<a,b>): pair<b,a>
  match p { Pair(x, y) -> Pair(y, x) }

fun zipped(xs: list<a>, ys: list<b>): list<pair<a,b>>
  match Pair(xs, ys)
    Pair(Cons(x, more), Cons(y, others)) -> Cons(Pair(x, y), zipped(more, others))
    _ -> Nil

fun sum-of-pairs(ps: list<pair<int32,int32>>): int32
  match ps
    Nil -> 0
    Cons(Pair(7, (y)), more) -> 1000 + y + sum-of-pairs(more)
    Cons(Pair(x, y), more) -> x * y + sum-of-pairs(more)

fun main()
  println(number(next(Red)))
  println(number(next(next(Red))))
  println(second(from(5, 9), -1))
  println(second(from(5, 5), -1))
  println(total(Node(1, Trees(Leaf(20), Trees(Node(300, None), None)))))
  match swapped(Pair(Amber, 4))
    Pair(n, s) -> println(10 * n + number(s))
  println(sum-of-pairs(zipped(from(5, 8), from(1, 9))))
