fun main()
  match 3
    n -> println(n)
    3 -> println(33)
