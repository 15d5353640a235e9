fun main()
  match 5
    0 -> println(1)
