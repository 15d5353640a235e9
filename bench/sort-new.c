// sort.c with a new cell for each that is given back, as sort.kk says it.
#include "device.h"
#include "list.h"

static list *numbers(int count) {
  list *first = 0;
  list **end = &first;
  for (int n = 1; count > 0; count--) {
    *end = cons(n % 1000, 0);
    end = &(*end)->tail;
    n = (n * 75 + 74) % 65537;
  }
  return first;
}

// Puts a new cell with the first number of `*cell` at the end of a list, and gives that cell back.
static list **move(list **end, list **cell) {
  list *first = *cell;
  *end = cons(first->head, 0);
  *cell = first->tail;
  give_back(first);
  return &(*end)->tail;
}

static list *merged(list *a, list *b) {
  list *first = 0;
  list **end = &first;
  while (a && b)
    end = a->head <= b->head ? move(end, &a) : move(end, &b);
  *end = a ? a : b;
  return first;
}

static list *sorted(list *cell) {
  if (!cell || !cell->tail)
    return cell;
  list *first = 0, *second = 0;
  while (cell) {
    list *more = cell->tail;
    list *longer = cons(cell->head, second);
    give_back(cell);
    second = first;
    first = longer;
    cell = more;
  }
  return merged(sorted(first), sorted(second));
}

static void run(void) {
  print_line(weighed(sorted(numbers(500))));
}
