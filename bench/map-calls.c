// map.c with the calls of map.kk: the rest of a list is mapped by a call. The numbers are changed in place.
#include "device.h"
#include "list.h"

static int mixed(int x) {
  return x * 31 % 1009 + 1;
}

static list *all_mixed(list *cell) {
  if (!cell)
    return 0;
  cell->head = mixed(cell->head);
  cell->tail = all_mixed(cell->tail);
  return cell;
}

static void run(void) {
  list *numbers = from(1, 100);
  for (int count = 0; count < 200; count++)
    numbers = all_mixed(numbers);
  print_line(weighed(numbers));
}
