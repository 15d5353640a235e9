// Prints a time of the day, given in seconds, as hours:minutes:seconds.
fun two-digits(n: int32): console ()
  if n < 10 then print(0)
  print(n)

fun clock(seconds: int32): console ()
  two-digits(seconds / 3600 % 24)
  print(":")
  two-digits(seconds / 60 % 60)
  print(":")
  two-digits(seconds % 60)
  println("")

// Every `step` seconds, to the end of the day.
fun tick(now: int32, step: int32): console ()
  if now < 24 * 60 * 60 then
    clock(now)
    tick(now + step, step)

fun main()
  println("door controller")
  tick(21600, 10000)
