fun first(x: a, y: b): a { x }
fun swap(x: a, y: b): b { first(y, x) }
fun choose(c: bool, x: a, y: a): a { if c then x else y }
fun main()
  println(first(1, True))
  println(swap(True, 2))
  println(choose(first(True, 0), 3, 4))
