// Reads levels, one a line, and prints the least, the mean and the greatest of the last three behind each.
type list<a> { Nil; Cons(head: a, tail: list<a>) }

// The last readings: `front` has the oldest ones, the oldest first, and `back` the others, the newest first.
type ring<a> { Ring(count: int32, front: list<a>, back: list<a>) }

fun reversed(xs: list<a>, onto: list<a>): list<a>
  match xs
    Cons(x, more) -> reversed(more, Cons(x, onto))
    Nil -> onto

// The ring with one reading more. Where it holds `size` already, which is at least 1, the oldest one makes way.
fun put(r: ring<a>, size: int32, reading: a): ring<a>
  match r
    Ring(count, front, back) ->
      if count < size then Ring(count + 1, front, Cons(reading, back))
      else match front
        Cons(_, newer) -> Ring(count, newer, Cons(reading, back))
        Nil -> put(Ring(count, reversed(back, Nil), Nil), size, reading)

fun least(xs: list<int32>, so-far: int32): int32
  match xs
    Cons(x, more) -> least(more, if x < so-far then x else so-far)
    Nil -> so-far

fun greatest(xs: list<int32>, so-far: int32): int32
  match xs
    Cons(x, more) -> greatest(more, if x > so-far then x else so-far)
    Nil -> so-far

fun sum(xs: list<int32>, so-far: int32): int32
  match xs
    Cons(x, more) -> sum(more, so-far + x)
    Nil -> so-far

fun report(r: ring<int32>): console ()
  match r
    Ring(count, front, back) ->
      print(least(front, least(back, 2147483647)))
      print(" ")
      print(sum(front, sum(back, 0)) / count)
      print(" ")
      println(greatest(front, greatest(back, -2147483648)))

// The next number of the input, one a line; -1 at its end.
fun next-number(so-far: int32): int32
  val b = read-byte()
  if 48 <= b && b <= 57 then next-number(10 * so-far + b - 48)
  elif b == 10 then so-far
  else -1

fun watch(last: ring<int32>): console ()
  val reading = next-number(0)
  if reading >= 0 then
    val now = put(last, 3, reading)
    report(now)
    watch(now)

fun main()
  watch(Ring(0, Nil, Nil))
