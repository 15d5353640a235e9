// Prints behind each byte of the input the mean of the last four.
type list<a> { Nil; Cons(head: a, tail: list<a>) }

// The first `count` of a list; what stands behind them is let go.
fun first(count: int32, xs: list<a>): list<a>
  match xs
    Cons(x, more) -> if count == 0 then Nil else Cons(x, first(count - 1, more))
    Nil -> Nil

fun sum(xs: list<int32>): int32
  match xs
    Cons(x, more) -> x + sum(more)
    Nil -> 0

fun length(xs: list<a>): int32
  match xs
    Cons(_, more) -> 1 + length(more)
    Nil -> 0

fun watch(last: list<int32>): console ()
  val reading = read-byte()
  if reading >= 0 then
    val now = first(4, Cons(reading, last))
    println(sum(now) / length(now))
    watch(now)

fun main()
  watch(Nil)
