type signal { Red; Green }
fun main() { if Red == Green then println(1) }
