// tree.c with a new node for each that is given back, as tree.kk says it.
#include "device.h"

typedef struct node {
  struct node *left;
  int key;
  struct node *right;
} node;

static node nodes[1000];
static node *border = nodes;
static node *frees;

static node *new_node(node *left, int key, node *right) {
  node *made = frees;
  if (made)
    frees = made->left;
  else if (border < nodes + 1000)
    made = border++;
  else
    stop(101);
  made->left = left;
  made->key = key;
  made->right = right;
  return made;
}

static void give_back(node *here) {
  here->left = frees;
  frees = here;
}

static void insert(node **tree, int key) {
  while (*tree) {
    node *here = *tree;
    node *copy = new_node(here->left, here->key, here->right);
    give_back(here);
    *tree = copy;
    if (key < copy->key)
      tree = &copy->left;
    else if (key > copy->key)
      tree = &copy->right;
    else
      return;
  }
  *tree = new_node(0, key, 0);
}

static int size(const node *tree) {
  return tree ? size(tree->left) + 1 + size(tree->right) : 0;
}

static int sum(const node *tree) {
  return tree ? sum(tree->left) + tree->key + sum(tree->right) : 0;
}

static void give_all_back(node *tree) {
  if (!tree)
    return;
  give_all_back(tree->left);
  give_all_back(tree->right);
  give_back(tree);
}

static void run(void) {
  node *tree = 0;
  int n = 1;
  for (int count = 0; count < 1000; count++) {
    insert(&tree, n % 2000);
    n = (n * 75 + 74) % 65537;
  }
  print_line(size(tree));
  print_line(sum(tree));
  give_all_back(tree);
}
