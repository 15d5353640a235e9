fun main()
  match 1 < 2
    True -> println(1)
