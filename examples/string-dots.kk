fun show(n: int32): console int32
  n.println; n
fun id(u: ()): int32 { 5 }
fun main()
  "a".print; "b".println()
  1.show.show.println
  print("c".print.id)
