// machine.kk in C.
#include "device.h"

enum state { BETWEEN, BEGUN, WITHIN };

static void run(void) {
  enum state state = BETWEEN;
  int left = 0, sum = 0, right = 0, wrong = 0, seed = 1;
  for (int count = 0; count < 10000; count++) {
    int n = seed / 8 % 8;
    seed = (seed * 75 + 74) % 65537;
    switch (state) {
    case BETWEEN:
      if (n == 2)
        state = BEGUN;
      break;
    case BEGUN:
      left = n;
      sum = 0;
      state = WITHIN;
      break;
    case WITHIN:
      if (left > 0) {
        left--;
        sum += n;
        break;
      }
      if (sum % 8 == n)
        right++;
      else
        wrong++;
      state = BETWEEN;
      break;
    }
  }
  print_line(right);
  print_line(wrong);
}
