fun female(n: int32): int32
  if n == 0 then 1 else n - male(female(n - 1))
fun male(n: int32): int32
  if n == 0 then 0 else n - female(male(n - 1))
fun row(n: int32, end: int32): console ()
  if n < end then
    print(female(n))
    print(" ")
    println(male(n))
    row(n + 1, end)
fun main()
  row(0, 12)
