fun say(b: bool): console () if b then println("yes") else println("no")
fun next(n: int32): int32 n + 1
fun sum(a: int32, b: int32, c: int32): int32 a + b + c
fun f(p: bool, q: bool, a: int32, b: int32, c: int32, d: int32): bool p || ~a + 1 == b + c * ~d.next && q || False
fun g(a: bool, b: bool, c: bool): bool a && b && (if c then 1 else 2) + 1 == 3
fun order(a: int32, b: int32): console () { say(a == b); say(a != b); say(a < b); say(a <= b); say(a > b); say(a >= b) }
fun main()
  say(f(True, False, 0, 0, 0, 0)); say(f(False, True, 10, 1, 2, 4)); say(f(False, False, 10, 1, 2, 4)); say(f(False, True, 9, 1, 2, 4))
  "and".println; say(g(True, True, False)); say(g(True, True, True)); say(g(True, False, False)); say(g(False, True, False))
  "order".println; order(1, 2); order(2, 2); order(3, 2)
  println(9 * 2 - 3 + 40 / 5 % 6)
  println(~~~5.sum(1, 2).next().next)
  say(!!True); say(!True && False)
