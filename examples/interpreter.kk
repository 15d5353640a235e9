// Runs a small language for a serial line. A number is pushed onto a stack. `+`, `-` and `*` take two numbers and push one; `d` pushes the
// top once more; `p` takes it and prints it. What stands in `[` and `]` is run as long as the top is not 0.
type list<a> { Nil; Cons(head: a, tail: list<a>) }

type code
  Done
  Push(number: int32, next: code)
  Apply(operator: int32, next: code)
  Repeat(body: code, next: code)

fun is-digit(b: int32): bool
  48 <= b && b <= 57

// The code from the byte `b` on, up to its `]` or to the end of the input.
fun code-from(b: int32): code
  if b < 0 || b == 93 then Done
  elif b == 91 then
    val body = code-from(read-byte())
    Repeat(body, code-from(read-byte()))
  elif is-digit(b) then number-from(b - 48)
  elif b <= 32 then code-from(read-byte())
  else Apply(b, code-from(read-byte()))

// The same, within a number of which these digits are read.
fun number-from(n: int32): code
  val b = read-byte()
  if is-digit(b) then number-from(10 * n + b - 48) else Push(n, code-from(b))

fun top(stack: list<int32>): int32
  match stack
    Cons(x, _) -> x
    Nil -> 0

// The stack behind an operator. An operator that is not known, or finds too few numbers, leaves it.
fun applied(operator: int32, stack: list<int32>): console list<int32>
  match stack
    Cons(y, Cons(x, rest)) ->
      match operator
        43 -> Cons(x + y, rest)
        45 -> Cons(x - y, rest)
        42 -> Cons(x * y, rest)
        _ -> applied-to-top(operator, stack)
    _ -> applied-to-top(operator, stack)

fun applied-to-top(operator: int32, stack: list<int32>): console list<int32>
  match stack
    Cons(x, rest) ->
      match operator
        100 -> Cons(x, stack)
        112 ->
          println(x)
          rest
        _ -> stack
    Nil -> Nil

fun run(c: code, stack: list<int32>): console list<int32>
  match c
    Done -> stack
    Push(n, next) -> run(next, Cons(n, stack))
    Apply(operator, next) -> run(next, applied(operator, stack))
    Repeat(body, next) -> if top(stack) == 0 then run(next, stack) else run(c, run(body, stack))

fun main()
  val _ = run(code-from(read-byte()), Nil)
  ()
