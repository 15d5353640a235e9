// queens.kk in C, with a list of the queens so far.
#include "device.h"
#include "list.h"

enum { SIZE = 7 };

static int is_safe(int row, const list *queens) {
  for (int distance = 1; queens; distance++, queens = queens->tail) {
    int queen = queens->head;
    if (queen == row || queen + distance == row || queen - distance == row)
      return 0;
  }
  return 1;
}

static int ways(int left, list *queens) {
  if (left == 0)
    return 1;
  int result = 0;
  for (int row = SIZE; row > 0; row--) {
    if (!is_safe(row, queens))
      continue;
    list *more = cons(row, queens);
    result += ways(left - 1, more);
    give_back(more);
  }
  return result;
}

static void run(void) {
  print_line(ways(SIZE, 0));
}
