fun main(): total ((())) { print("") }
