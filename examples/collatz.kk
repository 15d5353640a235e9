// How many steps a number takes to 1: half of an even number, three times an odd one and one.
fun steps(n: int32, count: int32): int32
  if n == 1 then count
  elif n % 2 == 0 then steps(n / 2, count + 1)
  else steps(3 * n + 1, count + 1)

// The number below a limit that takes most steps.
fun longest(n: int32, limit: int32, best: int32, most: int32): int32
  if n >= limit then best
  else
    val count = steps(n, 0)
    if count > most then longest(n + 1, limit, n, count)
    else longest(n + 1, limit, best, most)

fun main()
  println(steps(1, 0))
  println(steps(7, 0))
  println(steps(27, 0))
  println(longest(1, 1000, 1, 0))
