fun f(a: bool, b: bool): int32
  if a then if b then 1 else 2 else 3
fun g(a: bool, b: bool): console ()
  if a then if b then println(1) else println(2)
fun main()
  println(f(True, True)); println(f(True, False)); println(f(False, True))
  g(True, True); g(True, False); g(False, False)
  println(4)
