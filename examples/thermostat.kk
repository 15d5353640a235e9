// A thermostat with two thresholds, over a simulated room. Temperatures are tenths of a degree.
fun step(temperature: int32, heating: bool): int32
  val loss = (temperature - 100) / 20
  temperature - loss + (if heating then 8 else 0)

fun decide(temperature: int32, heating: bool): bool
  if temperature < 195 then True
  elif temperature > 215 then False
  else heating

fun show(temperature: int32, heating: bool): console ()
  print(temperature / 10)
  print(".")
  print(temperature % 10)
  if heating then println(" on") else println(" off")

fun run(minute: int32, temperature: int32, heating: bool): console ()
  if minute < 60 then
    val on = decide(temperature, heating)
    if minute % 5 == 0 then show(temperature, on)
    run(minute + 1, step(temperature, on), on)

fun main()
  run(0, 180, False)
