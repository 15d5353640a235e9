// reverse.kk in C. The list is reversed in place.
#include "device.h"
#include "list.h"

static list *reversed(list *cell) {
  list *result = 0;
  while (cell) {
    list *more = cell->tail;
    cell->tail = result;
    result = cell;
    cell = more;
  }
  return result;
}

static void run(void) {
  list *numbers = from(1, 200);
  for (int count = 0; count < 101; count++)
    numbers = reversed(numbers);
  print_line(weighed(numbers));
}
