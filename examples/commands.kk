// A line protocol for a device with numbered registers. `w 3 120` writes 120 to register 3, and is answered by `ok`. `r 3` is answered
// by what register 3 holds, 0 if nothing was written to it. An empty line is passed over, and every other one is answered by `?`.
type registers { None; Register(number: int32, value: int32, more: registers) }

// A number of the input, or -1 where there is none, and the byte behind it.
type argument { Argument(number: int32, next: int32) }

type request { Write(number: int32, value: int32); Read(number: int32); Unknown }

fun is-digit(b: int32): bool
  48 <= b && b <= 57

// The argument that begins with the byte `b`, which is a blank if there is one.
fun argument(b: int32): argument
  if b == 32 then number(read-byte()) else Argument(-1, b)

fun number(b: int32): argument
  if is-digit(b) then number-from(b - 48) else Argument(-1, b)

fun number-from(n: int32): argument
  val b = read-byte()
  if is-digit(b) then number-from(10 * n + b - 48) else Argument(n, b)

// Passes over what is left of a line whose byte `b` was read last.
fun to-line-end(b: int32): ()
  if b != 10 && b >= 0 then to-line-end(read-byte())

// The request of a line that begins with `letter`: `r` has one argument, `w` has two.
fun request-from(letter: int32): request
  match argument(read-byte())
    Argument(first, b) ->
      match argument(b)
        Argument(second, end) ->
          to-line-end(end)
          if end != 10 || first < 0 then Unknown
          elif letter == 114 && second < 0 then Read(first)
          elif letter == 119 && second >= 0 then Write(first, second)
          else Unknown

fun value-of(number: int32, registers: registers): int32
  match registers
    Register(n, value, more) -> if n == number then value else value-of(number, more)
    None -> 0

fun written(number: int32, value: int32, registers: registers): registers
  match registers
    Register(n, old, more) -> if n == number then Register(n, value, more) else Register(n, old, written(number, value, more))
    None -> Register(number, value, None)

fun serve(registers: registers): console ()
  val letter = read-byte()
  if letter == 10 then serve(registers)
  elif letter >= 0 then
    match request-from(letter)
      Read(number) ->
        println(value-of(number, registers))
        serve(registers)
      Write(number, value) ->
        println("ok")
        serve(written(number, value, registers))
      Unknown ->
        println("?")
        serve(registers)

fun main()
  serve(None)
