fun f(n: int32): int32
  if n > 0 then
    if n > 1 then
      2
  else 3
fun main() println(f(1))
