// Prints of no bytes: each of them is there, and puts nothing on the output.
type shade
  Light
  Dark(depth: int32)

fun silent(n: int32): console ()
  if n == 0 then print("") else println("")

fun name(s: shade): int32
  match s
    Light ->
      print("")
      0
    Dark(depth) ->
      print("")
      print("dark ")
      depth

fun none(n: int32): console ()
  if n == 0 then ()
  else
    print("")
    none(n - 1)

fun main()
  print("")
  print("")
  silent(0)
  print("a")
  silent(1)
  println(name(Light))
  println(name(Dark(7)))
  none(1000)
  "".print
  val unit = print("")
  unit
  println("b")
  print("")
