// A queue of events. In the input `t` is a tick of the clock, `+` and `-` are buttons, and `!` lets the events that wait be handled,
// the oldest first.
type list<a> { Nil; Cons(head: a, tail: list<a>) }

type event { Tick(at: int32); Button(step: int32, at: int32) }

// The events that wait: `front` has the oldest ones, the oldest first, and `back` the others, the newest first.
type queue { Queue(front: list<event>, back: list<event>) }

type taken { Nothing; Taken(event: event, others: queue) }

fun put(q: queue, e: event): queue
  match q
    Queue(front, back) -> Queue(front, Cons(e, back))

fun reversed(xs: list<a>, onto: list<a>): list<a>
  match xs
    Cons(x, more) -> reversed(more, Cons(x, onto))
    Nil -> onto

// The oldest event, and the queue without it.
fun take(q: queue): taken
  match q
    Queue(Cons(e, front), back) -> Taken(e, Queue(front, back))
    Queue(Nil, Nil) -> Nothing
    Queue(Nil, back) -> take(Queue(reversed(back, Nil), Nil))

// What the level is behind an event.
fun handle(e: event, level: int32): console int32
  match e
    Tick(at) ->
      print("tick ")
      println(at)
      level
    Button(step, at) ->
      print("button ")
      print(step)
      print(" at ")
      println(at)
      level + step

fun handle-all(q: queue, level: int32): console int32
  match take(q)
    Taken(e, others) -> handle-all(others, handle(e, level))
    Nothing -> level

fun loop(q: queue, now: int32, level: int32): console ()
  match read-byte()
    -1 -> ()
    116 -> loop(put(q, Tick(now)), now + 1, level)
    43 -> loop(put(q, Button(1, now)), now, level)
    45 -> loop(put(q, Button(-1, now)), now, level)
    33 ->
      val after = handle-all(q, level)
      print("level ")
      println(after)
      loop(Queue(Nil, Nil), now, after)
    _ -> loop(q, now, level)

fun main()
  loop(Queue(Nil, Nil), 0, 0)
