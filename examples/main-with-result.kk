fun main(): int32 { 1 }
