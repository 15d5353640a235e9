// Inserts 1,000 numbers in no order into a search tree, and prints how many different ones there are and their sum.
type tree { Leaf; Node(left: tree, key: int32, right: tree) }

fun inserted(key: int32, t: tree): tree
  match t
    Node(left, other, right) ->
      if key < other then Node(inserted(key, left), other, right)
      elif key > other then Node(left, other, inserted(key, right))
      else Node(left, other, right)
    Leaf -> Node(Leaf, key, Leaf)

// The number behind `n` in a row of numbers from 0 to 65536 that look as if they came by chance.
fun next(n: int32): int32
  (n * 75 + 74) % 65537

fun filled(count: int32, n: int32, t: tree): tree
  if count == 0 then t else filled(count - 1, next(n), inserted(n % 2000, t))

fun size(t: tree): int32
  match t
    Node(left, _, right) -> size(left) + 1 + size(right)
    Leaf -> 0

fun sum(t: tree): int32
  match t
    Node(left, key, right) -> sum(left) + key + sum(right)
    Leaf -> 0

fun main()
  val t = filled(1000, 1, Leaf)
  println(size(t))
  println(sum(t))
