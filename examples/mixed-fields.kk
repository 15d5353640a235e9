// A cell with six fields is given up with the list that holds it. Three fields are references, two of them to one cell, and three are numbers
// that are addresses of cells in the image: these stay as they are.
type leaf { Leaf(n: int32) }
type wide { Wide(a: int32, b: leaf, c: leaf, d: int32, e: leaf, f: int32) }
type list<a> { Nil; Cons(head: a, tail: list<a>) }

fun main()
  val twice = Leaf(1)
  match Cons(Wide(69664, twice, Leaf(2), 69696, twice, 69728), Nil)
    Nil -> println(1)
    Cons(_, _) -> println(2)
