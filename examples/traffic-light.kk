// A traffic light: 0 is red, 1 is red and yellow, 2 is green, 3 is yellow.
fun next(state: int32): int32
  (state + 1) % 4

fun show(state: int32): console ()
  if state == 0 then println("red")
  elif state == 1 then println("red, yellow")
  elif state == 2 then println("green")
  else println("yellow")

// Seconds that a state lasts.
fun seconds(state: int32): int32
  if state == 0 || state == 2 then 20 else 3

fun run(state: int32, time: int32, end: int32): console ()
  if time < end then
    time.print
    print(" ")
    show(state)
    run(next(state), time + seconds(state), end)

fun main()
  run(0, 0, 100)
