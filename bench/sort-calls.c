// sort.c with the calls of sort.kk: numbers are made, and lists merged, by a call for the rest. Cells are changed in place.
#include "device.h"
#include "list.h"

static list *numbers(int count, int n) {
  if (count == 0)
    return 0;
  return cons(n % 1000, numbers(count - 1, (n * 75 + 74) % 65537));
}

static list *merged(list *a, list *b) {
  if (!a)
    return b;
  if (!b)
    return a;
  if (a->head <= b->head) {
    a->tail = merged(a->tail, b);
    return a;
  }
  b->tail = merged(a, b->tail);
  return b;
}

static list *sorted(list *cell) {
  if (!cell || !cell->tail)
    return cell;
  list *first = 0, *second = 0;
  while (cell) {
    list *more = cell->tail;
    cell->tail = second;
    second = first;
    first = cell;
    cell = more;
  }
  return merged(sorted(first), sorted(second));
}

static void run(void) {
  print_line(weighed(sorted(numbers(500, 1))));
}
