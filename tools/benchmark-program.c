/* The program of tools/benchmark-program.s: random numbers, a tree by recursion, a sort, a hash of text, and a
   function with cases, so that loads, stores, branches, calls and stack frames stand as a compiler has them. */
typedef unsigned int u32;
struct node { int key; struct node *left, *right; };
static int values[1024];
static struct node pool[1024];
static int used;
static char text[4096];
static u32 seed = 1;
__attribute__((noinline)) u32 next_random(void) { seed = seed * 1103515245u + 12345u; return seed >> 8; }
__attribute__((noinline)) void sort(int *a, int low, int high) {
  if (low >= high) return;
  int pivot = a[(low + high) >> 1], i = low, j = high;
  while (i <= j) {
    while (a[i] < pivot) i++;
    while (a[j] > pivot) j--;
    if (i <= j) { int t = a[i]; a[i] = a[j]; a[j] = t; i++; j--; }
  }
  sort(a, low, j); sort(a, i, high);
}
__attribute__((noinline)) struct node *insert(struct node *t, int key) {
  if (!t) { struct node *n = &pool[used++ & 1023]; n->key = key; n->left = n->right = 0; return n; }
  if (key < t->key) t->left = insert(t->left, key); else t->right = insert(t->right, key);
  return t;
}
__attribute__((noinline)) int height(struct node *t) { if (!t) return 0; int l = height(t->left), r = height(t->right); return (l > r ? l : r) + 1; }
__attribute__((noinline)) u32 hash(const char *s, int n) { u32 h = 5381; for (int i = 0; i < n; i++) h = h * 33 ^ (u32)s[i]; return h; }
__attribute__((noinline)) int classify(int c) {
  switch (c & 7) { case 0: return 3; case 1: return c >> 2; case 2: return -c; case 3: return c * 5; case 4: return c ^ 0x55; default: return c % 7; } }
int program(int rounds) {
  u32 sum = 0;
  for (int r = 0; r < rounds; r++) {
    for (int i = 0; i < 1024; i++) { values[i] = next_random() & 0xffff; text[4 * i] = values[i]; text[4*i+1] = values[i] >> 8; }
    used = 0; struct node *root = 0;
    for (int i = 0; i < 256; i++) root = insert(root, values[i]);
    sum += height(root);
    sort(values, 0, 1023);
    sum = sum * 31 + values[r & 1023];
    sum ^= hash(text, 4096);
    for (int i = 0; i < 1024; i += 4) sum += classify(values[i]);
  }
  return sum & 255;
}
