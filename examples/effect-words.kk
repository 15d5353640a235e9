fun next-byte(): int32 { 7 }
fun total(x': int32): total int32 { x' }
fun div(): div int32
  total(next-byte() -1)
fun main(): <>() println(div())
