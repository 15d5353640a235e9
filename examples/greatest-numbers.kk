fun main() {
  println(-2147483648 % -1); println(-2147483648 - 1); println(~-2147483648); println(65536 * 65536);
  println(-2147483648); println(2147483647)
}
