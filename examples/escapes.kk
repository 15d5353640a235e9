fun main() { print("a\n\r\t\\\"\'b") }
