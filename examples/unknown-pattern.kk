fun main() { match 1 { Some(x) -> () } }
