// Numbers with eight bits behind the point: products, quotients, and the sine of an angle in degrees (Bhaskara).
fun mul(a: int32, b: int32): int32
  a * b / 256

fun div(a: int32, b: int32): int32
  a * 256 / b

fun half-sine(d: int32): int32
  val p = d * (180 - d)
  4 * p * 256 / (40500 - p)

fun sine(degrees: int32): int32
  val d = (degrees % 360 + 360) % 360
  if d <= 180 then half-sine(d) else ~half-sine(d - 180)

fun show(a: int32): console ()
  if a < 0 then print("-")
  val size = if a < 0 then ~a else a
  print(size / 256)
  print(".")
  val hundredths = size % 256 * 100 / 256
  if hundredths < 10 then print(0)
  println(hundredths)

fun main()
  show(mul(384, 640))
  show(div(256, 768))
  show(sine(0))
  show(sine(30))
  show(sine(90))
  show(sine(-45))
