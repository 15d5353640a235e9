fun main() {
  "text".println(); "more".println; "a".print(); "b".print; print(""); println("");
  print("a"); println(1); print("b")
}
