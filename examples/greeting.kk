fun main() {
  print("the answer is ");
  println(~(6 * ~7));
  "good bye".println()
}
