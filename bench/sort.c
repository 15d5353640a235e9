// sort.kk in C. Lists are split and merged in place.
#include "device.h"
#include "list.h"

static list *numbers(int count) {
  list *first = 0;
  list **end = &first;
  for (int n = 1; count > 0; count--) {
    *end = cons(n % 1000, 0);
    end = &(*end)->tail;
    n = (n * 75 + 74) % 65537;
  }
  return first;
}

static list *merged(list *a, list *b) {
  list *first;
  list **end = &first;
  while (a && b) {
    if (a->head <= b->head) {
      *end = a;
      a = a->tail;
    } else {
      *end = b;
      b = b->tail;
    }
    end = &(*end)->tail;
  }
  *end = a ? a : b;
  return first;
}

static list *sorted(list *cell) {
  if (!cell || !cell->tail)
    return cell;
  list *first = 0, *second = 0;
  while (cell) {
    list *more = cell->tail;
    cell->tail = second;
    second = first;
    first = cell;
    cell = more;
  }
  return merged(sorted(first), sorted(second));
}

static void run(void) {
  print_line(weighed(sorted(numbers(500))));
}
