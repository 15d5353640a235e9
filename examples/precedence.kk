fun main() {
  println((1 + 2) * 3);
  println(10 - 3 - 2);
  println(8 / 4 % 3 * 2);
  println(~(2 + 3));
  println(2 -1)
}
