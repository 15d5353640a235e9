// The alarms of a device, as a priority queue. A line with a number sets an alarm at that time. An empty line takes the earliest
// one and prints its time, or `none` where there is none.
type queue { Empty; Alarm(time: int32, left: queue, right: queue) }

// Two queues as one: a skew heap, of which the earliest alarm is the root.
fun joined(a: queue, b: queue): queue
  match a
    Alarm(time, left, right) ->
      match b
        Alarm(other, _, _) -> if time <= other then Alarm(time, joined(right, b), left) else joined(b, a)
        Empty -> a
    Empty -> b

fun is-digit(b: int32): bool
  48 <= b && b <= 57

// The number of which `n` is read, up to the end of its line.
fun number-from(n: int32): int32
  val b = read-byte()
  if is-digit(b) then number-from(10 * n + b - 48) else n

fun watch(alarms: queue): console ()
  val b = read-byte()
  if is-digit(b) then watch(joined(Alarm(number-from(b - 48), Empty, Empty), alarms))
  elif b == 10 then next(alarms)

fun next(alarms: queue): console ()
  match alarms
    Alarm(time, left, right) ->
      println(time)
      watch(joined(left, right))
    Empty ->
      println("none")
      watch(Empty)

fun main()
  watch(Empty)
