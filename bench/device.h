// What each program in C has of its device: the start, the exit, and prints of numbers. docs/runtime.md has the calls.

static long call(long number, long a, const void *b, long c) {
  register long a0 __asm__("a0") = a;
  register const void *a1 __asm__("a1") = b;
  register long a2 __asm__("a2") = c;
  register long a7 __asm__("a7") = number;
  __asm__ volatile("ecall" : "+r"(a0) : "r"(a1), "r"(a2), "r"(a7) : "memory");
  return a0;
}

_Noreturn static inline void stop(int status) {
  call(93, status, 0, 0);
  __builtin_unreachable();
}

// Prints a number, which is not negative, and a line feed.
static inline void print_line(unsigned number) {
  char line[11];
  int first = 10;
  line[first] = '\n';
  do {
    line[--first] = '0' + number % 10;
    number /= 10;
  } while (number != 0);
  call(64, 1, line + first, 11 - first);
}

static unsigned char stack[16384] __attribute__((aligned(16), used));

// The program.
static void run(void);

__attribute__((used)) _Noreturn static void begin(void) {
  run();
  stop(0);
}

__asm__(
  ".globl _start\n"
  "_start:\n"
  "  .option push\n"
  "  .option norelax\n"
  "  la gp, __global_pointer$\n"
  "  .option pop\n"
  "  la sp, stack + 16384\n"
  "  j begin\n");
