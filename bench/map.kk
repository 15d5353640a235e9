// Maps a list of 100 numbers 200 times, each time to a list of other numbers, and prints the sum of the last one, each number times its
// place.
type list<a> { Nil; Cons(head: a, tail: list<a>) }

fun from(n: int32, end: int32): list<int32>
  if n > end then Nil else Cons(n, from(n + 1, end))

fun mixed(x: int32): int32
  x * 31 % 1009 + 1

fun all-mixed(xs: list<int32>): list<int32>
  match xs
    Cons(x, more) -> Cons(mixed(x), all-mixed(more))
    Nil -> Nil

fun often(count: int32, xs: list<int32>): list<int32>
  if count == 0 then xs else often(count - 1, all-mixed(xs))

fun weighed(xs: list<int32>, place: int32, sum: int32): int32
  match xs
    Cons(x, more) -> weighed(more, place + 1, sum + place * x)
    Nil -> sum

fun main()
  println(weighed(often(200, from(1, 100)), 1, 0))
