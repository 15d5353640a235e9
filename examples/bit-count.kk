// The number of ones in the 32 bits of a number. A negative one has the highest bit.
fun ones(n: int32): int32
  if n < 0 then 1 + count(n + 2147483647 + 1, 0) else count(n, 0)

fun count(n: int32, so-far: int32): int32
  if n == 0 then so-far else count(n / 2, so-far + n % 2)

fun main()
  println(ones(0))
  println(ones(255))
  println(ones(0x55555555))
  println(ones(-1))
  println(ones(-2147483648))
