// Adds up the decimal numbers of the input, one a line, and prints the sum after each. Blank lines count as 0.
fun is-digit(b: int32): bool
  48 <= b && b <= 57

// `number` is what the line has come to so far
fun sums(number: int32, total: int32): console ()
  val b = read-byte()
  if b.is-digit then sums(10 * number + b - 48, total)
  elif b == 10 then
    println(total + number)
    sums(0, total + number)

fun main()
  sums(0, 0)
