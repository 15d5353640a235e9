// Leap years, and the day of the week: 0 is Sunday.
fun leap(year: int32): bool
  year % 4 == 0 && (year % 100 != 0 || year % 400 == 0)

fun days-before(month: int32, year: int32): int32
  val february = if leap(year) then 29 else 28
  if month <= 1 then 0
  elif month == 2 then 31
  else 31 + february + (153 * (month - 3) + 2) / 5

fun days-since-start(year: int32, month: int32, day: int32): int32
  val past = year - 1900
  val leaps = (year - 1) / 4 - (year - 1) / 100 + (year - 1) / 400 - 460
  past * 365 + leaps + days-before(month, year) + day - 1

fun weekday(year: int32, month: int32, day: int32): int32
  (days-since-start(year, month, day) + 1) % 7

fun yes-or-no(b: bool): console ()
  if b then println("yes") else println("no")

fun main()
  yes-or-no(leap(1900))
  yes-or-no(leap(2000))
  yes-or-no(leap(2026))
  println(weekday(1900, 1, 1))
  println(weekday(2000, 2, 29))
  println(weekday(2026, 11, 27))
