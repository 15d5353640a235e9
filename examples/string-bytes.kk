fun main() { print("é//	/*") }
