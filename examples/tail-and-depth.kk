fun even(n: int32): bool
  n == 0 || odd(n - 1)
fun odd(n: int32): bool
  n != 0 && even(n - 1)
fun down(n: int32): int32
  if n == 0 then 0 else 1 + down(n - 1)
fun main()
  if even(100000) then println("even")
  println(down(4094))
