fun f(): int32 { val x = 1;; val _ = x;; x; }
fun g(): int32 { println(2); val x = { 4 }; { { println(3); x } } }
fun main() { println(f()); println(g()) }
