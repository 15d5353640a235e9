fun even(n: int32): bool
  if n == 0 then True else odd(n - 1)
fun odd(n: int32): bool
  if n == 0 then False else even(n - 1)
fun answer(b: bool): console ()
  if b then println("even") else println("odd")
fun main()
  go(1000000)
fun go(n: int32): console ()
  if n < 0 then answer(False) elif n == 0 then answer(True) else back(n - 1)
fun back(n: int32): console ()
  if n == 0 then answer(False) else go(n - 1)
