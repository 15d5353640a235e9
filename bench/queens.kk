// Counts the ways in which 7 queens stand on a board of 7 rows and 7 columns so that none attacks another. A list has the row of the
// queen of each column so far, the newest column first.
type list<a> { Nil; Cons(head: a, tail: list<a>) }

// Whether a queen in this row is safe from those of a list, the first of which is `distance` columns away.
fun is-safe(row: int32, queens: list<int32>, distance: int32): bool
  match queens
    Cons(queen, more) ->
      queen != row && queen + distance != row && queen - distance != row && is-safe(row, more, distance + 1)
    Nil -> True

// In how many ways the columns that are left can be filled.
fun ways(size: int32, left: int32, queens: list<int32>): int32
  if left == 0 then 1 else ways-below(size, size, left, queens)

// The same, with a queen in one of the rows up to this one in the next column.
fun ways-below(row: int32, size: int32, left: int32, queens: list<int32>): int32
  if row == 0 then 0
  elif is-safe(row, queens, 1) then
    ways(size, left - 1, Cons(row, queens)) + ways-below(row - 1, size, left, queens)
  else ways-below(row - 1, size, left, queens)

fun main()
  println(ways(7, 7, Nil))
