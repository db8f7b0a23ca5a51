/* Function pointers, a switch that becomes a table of branches, recursion, and calls of the host. */
extern int host_write(int place, int length);
extern void host_note(int code);

typedef int (*operation)(int, int);

static int add(int a, int b) { return a + b; }
static int subtract(int a, int b) { return a - b; }
static int multiply(int a, int b) { return a * b; }
static int divide(int a, int b) { return b ? a / b : 0; }

static operation operations[] = { add, subtract, multiply, divide };

int apply(unsigned int which, int a, int b) {
  return which < 4 ? operations[which](a, b) : -1;
}

int step(int state, int input) {
  switch (state) {
    case 0: return input == 'a' ? 1 : 0;
    case 1: return input == 'b' ? 2 : input == 'a' ? 1 : 0;
    case 2: return input == 'c' ? 3 : 0;
    case 3: host_note(input); return 4;
    case 4: return input & 7;
    case 5: case 6: return 2;
    case 7: return host_write(input, 1);
    default: return 0;
  }
}

int fibonacci(int n) { return n < 2 ? n : fibonacci(n - 1) + fibonacci(n - 2); }

int ackermann(int m, int n) {
  if (m == 0) return n + 1;
  if (n == 0) return ackermann(m - 1, 1);
  return ackermann(m - 1, ackermann(m, n - 1));
}

static unsigned char cells[256];

int interpret(const unsigned char *program, int count) {
  int at = 0, place = 0, steps = 0;
  while (at < count && steps++ < 10000) {
    switch (program[at++]) {
      case '>': place = (place + 1) & 255; break;
      case '<': place = (place - 1) & 255; break;
      case '+': cells[place]++; break;
      case '-': cells[place]--; break;
      case '.': host_write((int)(unsigned long)&cells[place], 1); break;
      case '[': if (!cells[place]) while (at < count && program[at++] != ']') {} break;
      case ']': if (cells[place]) while (at > 0 && program[--at] != '[') {} break;
    }
  }
  return cells[place];
}
