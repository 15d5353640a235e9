// map.c with a new cell for each that is given back, as map.kk says it.
#include "device.h"
#include "list.h"

static int mixed(int x) {
  return x * 31 % 1009 + 1;
}

static list *all_mixed(list *cell) {
  list *first = 0;
  list **end = &first;
  while (cell) {
    list *more = cell->tail;
    *end = cons(mixed(cell->head), 0);
    end = &(*end)->tail;
    give_back(cell);
    cell = more;
  }
  return first;
}

static void run(void) {
  list *numbers = from(1, 100);
  for (int count = 0; count < 200; count++)
    numbers = all_mixed(numbers);
  print_line(weighed(numbers));
}
