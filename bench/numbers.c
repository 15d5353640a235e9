// numbers.kk in C.
#include "device.h"

static int is_prime(int n) {
  for (int divisor = 2; divisor * divisor <= n; divisor++)
    if (n % divisor == 0)
      return 0;
  return 1;
}

static int primes(int end) {
  int found = 0;
  for (int n = 2; n < end; n++)
    found += is_prime(n);
  return found;
}

static int gcd(int a, int b) {
  while (b != 0) {
    int rest = a % b;
    a = b;
    b = rest;
  }
  return a;
}

static int divisors(int end) {
  int sum = 0;
  for (int a = 1; a <= end; a++)
    for (int b = 1; b <= end; b++)
      sum += gcd(a, b);
  return sum;
}

// The steps from `n` to 1.
static int way(int n) {
  int steps = 0;
  for (; n != 1; steps++)
    n = n % 2 == 0 ? n / 2 : 3 * n + 1;
  return steps;
}

static int longest(int end) {
  int best = 1, steps = 0;
  for (int n = 1; n < end; n++) {
    int here = way(n);
    if (here > steps) {
      best = n;
      steps = here;
    }
  }
  return best;
}

static void run(void) {
  print_line(primes(1000));
  print_line(divisors(40));
  print_line(longest(300));
}
