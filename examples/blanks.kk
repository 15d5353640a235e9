fun main() {
	println(1);;
	println(3); /* 2 /* 4 */ */ // 5
}
;