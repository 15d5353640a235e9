fun main() { println(0xFf); println(1_000); print(12); print(-3); print(0) }
