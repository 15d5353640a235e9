// Finds frames in a row of 10,000 numbers from 0 to 7. A frame is a 2, the count of its numbers, these numbers, and their sum modulo 8.
// What stands between frames is passed over. It prints how many frames had the right sum, and how many a wrong one.
type state
  Between
  Begun
  Within(left: int32, sum: int32)
  Right
  Wrong

// The state behind one more number.
fun advanced(s: state, n: int32): state
  match s
    Begun -> Within(n, 0)
    Within(0, sum) -> if sum % 8 == n then Right else Wrong
    Within(left, sum) -> Within(left - 1, sum + n)
    _ -> if n == 2 then Begun else Between

// The number behind `n` in a row of numbers from 0 to 65536 that look as if they came by chance.
fun next(n: int32): int32
  (n * 75 + 74) % 65537

fun watch(count: int32, n: int32, s: state, right: int32, wrong: int32): console ()
  if count == 0 then
    println(right)
    println(wrong)
  else
    match advanced(s, n / 8 % 8)
      Right -> watch(count - 1, next(n), Right, right + 1, wrong)
      Wrong -> watch(count - 1, next(n), Wrong, right, wrong + 1)
      other -> watch(count - 1, next(n), other, right, wrong)

fun main()
  watch(10_000, 1, Between, 0, 0)
