// Powers by squaring: of numbers that wrap, and of remainders.
fun power(base: int32, exponent: int32): int32
  if exponent == 0 then 1
  else
    val half = power(base, exponent / 2)
    val square = half * half
    if exponent % 2 == 0 then square else square * base

fun power-mod(base: int32, exponent: int32, modulus: int32, so-far: int32): int32
  if exponent == 0 then so-far % modulus
  else
    val rest = if exponent % 2 == 1 then so-far * base % modulus else so-far
    power-mod(base * base % modulus, exponent / 2, modulus, rest)

fun main()
  println(power(2, 10))
  println(power(3, 19))
  println(power(2, 31))
  println(power-mod(3, 200, 13, 1))
  println(power-mod(7, 560, 561, 1))
