// Reverses a list of 200 numbers 101 times, and prints the sum of its numbers, each times its place.
type list<a> { Nil; Cons(head: a, tail: list<a>) }

fun from(n: int32, end: int32): list<int32>
  if n > end then Nil else Cons(n, from(n + 1, end))

// What stands before `behind` is `xs` in reverse.
fun reversed(xs: list<a>, behind: list<a>): list<a>
  match xs
    Cons(x, more) -> reversed(more, Cons(x, behind))
    Nil -> behind

fun often(count: int32, xs: list<a>): list<a>
  if count == 0 then xs else often(count - 1, reversed(xs, Nil))

fun weighed(xs: list<int32>, place: int32, sum: int32): int32
  match xs
    Cons(x, more) -> weighed(more, place + 1, sum + place * x)
    Nil -> sum

fun main()
  println(weighed(often(101, from(1, 200)), 1, 0))
