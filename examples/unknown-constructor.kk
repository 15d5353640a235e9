fun main() { val x = Some(1); () }
