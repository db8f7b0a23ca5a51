/* Functions that work through others, and tell the host what they have. Each call of `observe` can be a slice's instruction. */
#define APART __attribute__((noinline))

extern void observe(int place, int value);
extern int answer(int question);

typedef int (*step)(int, int);

static int total, last, table[64];

APART static int add(int a, int b) {
  total += a;
  return a + b;
}

APART static int swap(int a, int b) {
  last = a;
  return b - a;
}

APART static int spread(int a, int b) {
  table[a & 63] = b;
  return table[b & 63];
}

static step steps[4] = {add, swap, spread, 0};

/* Calls itself, and returns only where what it is given is small. */
APART static int down(int n, int by) {
  if (n <= 0)
    return by;
  if (by == 77)
    __builtin_trap();
  return down(n - 1, by) + total;
}

APART static int is_even(int n);
APART static int is_odd(int n) { return n <= 0 ? 0 : is_even(n - 1); }
APART static int is_even(int n) { return n <= 0 ? 1 : is_odd(n - 1); }

APART static void fill(int from, int count) {
  for (int i = 0; i < count; i++)
    table[(from + i) & 63] = from * i;
}

APART static int sum(int from, int count) {
  int all = 0;
  for (int i = 0; i < count; i++)
    all += table[(from + i) & 63];
  return all;
}

int through_globals(int a, int b) {
  int first = add(a, b);
  swap(b, a);
  observe(1, total);
  fill(a, 5);
  observe(2, last);
  last = 3;
  observe(3, first + last);
  return sum(a, 3);
}

int through_memory(int a, int count) {
  count &= 15;
  fill(a, count);
  int before = sum(a, count);
  observe(1, before);
  spread(a, 7);
  if (sum(a, 1) > 3)
    fill(a + 1, 2);
  observe(2, sum(a, 4));
  return before;
}

int through_pointers(int a, int b) {
  int all = 0;
  for (int i = 0; i < 6; i++) {
    step one = steps[(a + i) & 3];
    if (one)
      all += one(i, b);
    observe(1, all);
    if (i == 4)
      observe(2, total);
  }
  observe(3, last);
  return all;
}

int through_recursion(int a, int b) {
  int deep = down(a & 31, b);
  observe(1, b);
  if (is_even(b & 63))
    observe(2, deep);
  down(3, b);
  observe(3, is_odd(a & 31));
  return deep;
}

int through_pages(int a, int b) {
  int pages = __builtin_wasm_memory_size(0);
  observe(1, pages);
  if (a & 1)
    __builtin_wasm_memory_grow(0, b & 3);
  add(a, b);
  observe(2, __builtin_wasm_memory_size(0));
  return pages;
}

int through_the_host(int a, int b) {
  int told = answer(a);
  int more = b;
  while (more-- > 0 && told < 20 && told >= 0)
    told += answer(told) + 3;
  observe(1, told);
  observe(2, a);
  return told;
}
