// The greatest common divisor of two numbers, by Euclid.
fun gcd(a: int32, b: int32): int32
  if b == 0 then a else gcd(b, a % b)

fun main()
  println(gcd(1071, 462))
  println(gcd(17, 5))
  println(gcd(0, 9))
  println(gcd(1836311903, 1134903170))
