// Prints numbers in binary.
fun bits(n: int32): console ()
  if n > 1 then bits(n / 2)
  print(n % 2)

fun binary(n: int32): console ()
  if n < 0 then
    print("-")
    bits(~n)
  else bits(n)
  println("")

fun main()
  binary(0)
  binary(10)
  binary(255)
  binary(-6)
  65536.binary
