// A checksum (Fletcher's, of 16 bits) over numbers of a generator, and a turn of bits by arithmetic.
fun next(x: int32): int32
  x * 1103515245 + 12345

fun byte-of(x: int32): int32
  val b = x / 65536 % 256
  if b < 0 then b + 256 else b

fun fletcher(count: int32, x: int32, low: int32, high: int32): int32
  if count == 0 then high * 256 + low
  else
    val a = (low + byte-of(x)) % 255
    fletcher(count - 1, next(x), a, (high + a) % 255)

fun main()
  println(fletcher(0, 1, 0, 0))
  println(fletcher(1, 1, 0, 0))
  println(fletcher(1000, 1, 0, 0))
  println(fletcher(20000, 42, 0, 0))
