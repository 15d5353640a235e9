// tree.c with the calls of tree.kk: a number is inserted in a subtree by a call. Nodes are changed in place.
#include "device.h"

typedef struct node {
  struct node *left;
  int key;
  struct node *right;
} node;

static node nodes[1000];
static node *border = nodes;
static node *frees;

static node *new_node(node *left, int key, node *right) {
  node *made = frees;
  if (made)
    frees = made->left;
  else if (border < nodes + 1000)
    made = border++;
  else
    stop(101);
  made->left = left;
  made->key = key;
  made->right = right;
  return made;
}

static void give_back(node *here) {
  here->left = frees;
  frees = here;
}

static node *inserted(int key, node *here) {
  if (!here)
    return new_node(0, key, 0);
  if (key < here->key)
    here->left = inserted(key, here->left);
  else if (key > here->key)
    here->right = inserted(key, here->right);
  return here;
}

static int size(const node *tree) {
  return tree ? size(tree->left) + 1 + size(tree->right) : 0;
}

static int sum(const node *tree) {
  return tree ? sum(tree->left) + tree->key + sum(tree->right) : 0;
}

static void give_all_back(node *tree) {
  if (!tree)
    return;
  give_all_back(tree->left);
  give_all_back(tree->right);
  give_back(tree);
}

static void run(void) {
  node *tree = 0;
  int n = 1;
  for (int count = 0; count < 1000; count++) {
    tree = inserted(n % 2000, tree);
    n = (n * 75 + 74) % 65537;
  }
  print_line(size(tree));
  print_line(sum(tree));
  give_all_back(tree);
}
