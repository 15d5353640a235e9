fun f(a: bool, b: bool): int32 if a then 1 elif b then 2 else 3
fun g(a: bool, b: bool): console () if a then println(1) elif b then println(2)
fun h(a: bool, b: bool, d: bool): console () if a then if b then println(1) elif d then println(2) else println(3)
fun i(a: bool, b: bool): console () if a then { if b then println(1) } else println(2)
fun main()
  println(f(True, False)); println(f(False, True)); println(f(False, False))
  "g".println; g(True, False); g(False, True); g(False, False)
  "h".println; h(False, True, True); h(True, True, False); h(True, False, True); h(True, False, False)
  "i".println; i(True, True); i(True, False); i(False, True)
