// Sorts a list of 500 numbers in no order by merging, and prints the sum of its numbers, each times its place.
type list<a> { Nil; Cons(head: a, tail: list<a>) }

type halves { Halves(first: list<int32>, second: list<int32>) }

// The number behind `n` in a row of numbers from 0 to 65536 that look as if they came by chance.
fun next(n: int32): int32
  (n * 75 + 74) % 65537

fun numbers(count: int32, n: int32): list<int32>
  if count == 0 then Nil else Cons(n % 1000, numbers(count - 1, next(n)))

// The numbers of `xs`, put before these two lists in turn.
fun split(xs: list<int32>, first: list<int32>, second: list<int32>): halves
  match xs
    Cons(x, more) -> split(more, Cons(x, second), first)
    Nil -> Halves(first, second)

// Two sorted lists as one.
fun merged(a: list<int32>, b: list<int32>): list<int32>
  match a
    Cons(x, a-more) ->
      match b
        Cons(y, b-more) -> if x <= y then Cons(x, merged(a-more, b)) else Cons(y, merged(a, b-more))
        Nil -> a
    Nil -> b

fun sorted(xs: list<int32>): list<int32>
  match xs
    Cons(_, Cons(_, _)) ->
      match split(xs, Nil, Nil)
        Halves(first, second) -> merged(sorted(first), sorted(second))
    _ -> xs

fun weighed(xs: list<int32>, place: int32, sum: int32): int32
  match xs
    Cons(x, more) -> weighed(more, place + 1, sum + place * x)
    Nil -> sum

fun main()
  println(weighed(sorted(numbers(500, 1)), 1, 0))
