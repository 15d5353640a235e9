// Prints how many primes there are below 1,000, the sum of the greatest common divisors of all pairs of numbers from 1 to 40, and the
// number below 300 whose way to 1 by Collatz is the longest.
fun is-prime(n: int32, divisor: int32): bool
  if divisor * divisor > n then True
  elif n % divisor == 0 then False
  else is-prime(n, divisor + 1)

fun primes(n: int32, end: int32, found: int32): int32
  if n == end then found
  elif is-prime(n, 2) then primes(n + 1, end, found + 1)
  else primes(n + 1, end, found)

fun gcd(a: int32, b: int32): int32
  if b == 0 then a else gcd(b, a % b)

fun divisors(a: int32, b: int32, end: int32, sum: int32): int32
  if a > end then sum
  elif b > end then divisors(a + 1, 1, end, sum)
  else divisors(a, b + 1, end, sum + gcd(a, b))

// The steps from `n` to 1.
fun way(n: int32, steps: int32): int32
  if n == 1 then steps
  elif n % 2 == 0 then way(n / 2, steps + 1)
  else way(3 * n + 1, steps + 1)

fun longest(n: int32, end: int32, best: int32, steps: int32): int32
  if n == end then best
  else
    val here = way(n, 0)
    if here > steps then longest(n + 1, end, n, here) else longest(n + 1, end, best, steps)

fun main()
  println(primes(2, 1000, 0))
  println(divisors(1, 1, 40, 0))
  println(longest(1, 300, 1, 0))
