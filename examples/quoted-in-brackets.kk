fun main() { ("x").print }
