// Lists of numbers. Their cells come from a free list, and from a border that goes up where that is empty.

typedef struct list {
  int head;
  struct list *tail;
} list;

static list cells[512];
static list *border = cells;
static list *frees;

static inline list *cons(int head, list *tail) {
  list *cell = frees;
  if (cell)
    frees = cell->tail;
  else if (border < cells + 512)
    cell = border++;
  else
    stop(101);
  cell->head = head;
  cell->tail = tail;
  return cell;
}

static inline void give_back(list *cell) {
  cell->tail = frees;
  frees = cell;
}

// The list of the numbers from `first` to `last`.
static inline list *from(int first, int last) {
  list *result = 0;
  for (int n = last; n >= first; n--)
    result = cons(n, result);
  return result;
}

// The sum of the numbers of a list, each times its place. The list is given back.
static inline int weighed(list *cell) {
  int place = 1, sum = 0;
  while (cell) {
    list *more = cell->tail;
    sum += place++ * cell->head;
    give_back(cell);
    cell = more;
  }
  return sum;
}
