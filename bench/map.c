// map.kk in C. The numbers are changed in place.
#include "device.h"
#include "list.h"

static int mixed(int x) {
  return x * 31 % 1009 + 1;
}

static void mix_all(list *cell) {
  for (; cell; cell = cell->tail)
    cell->head = mixed(cell->head);
}

static void run(void) {
  list *numbers = from(1, 100);
  for (int count = 0; count < 200; count++)
    mix_all(numbers);
  print_line(weighed(numbers));
}
