fun id(x: a): a { x }
fun main() { println(id(3)); if id(True) then println(1) else println(2) }
