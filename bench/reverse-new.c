// reverse.c with a new cell for each that is given back, as reverse.kk says it.
#include "device.h"
#include "list.h"

static list *reversed(list *cell) {
  list *result = 0;
  while (cell) {
    list *more = cell->tail;
    result = cons(cell->head, result);
    give_back(cell);
    cell = more;
  }
  return result;
}

static void run(void) {
  list *numbers = from(1, 200);
  for (int count = 0; count < 101; count++)
    numbers = reversed(numbers);
  print_line(weighed(numbers));
}
