fun main()
  match 5
    0 -> println(1)
    n -> println(n)
