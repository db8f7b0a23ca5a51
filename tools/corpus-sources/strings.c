/* Text in memory: lengths, copies, searches, numbers. */
typedef unsigned int size;

size text_length(const char *text) {
  size n = 0;
  while (text[n]) n++;
  return n;
}

int text_compare(const char *a, const char *b) {
  while (*a && *a == *b) a++, b++;
  return (unsigned char)*a - (unsigned char)*b;
}

char *text_copy(char *to, const char *from) {
  char *start = to;
  while ((*to++ = *from++)) {}
  return start;
}

const char *text_find(const char *text, const char *part) {
  for (; *text; text++) {
    size k = 0;
    while (part[k] && text[k] == part[k]) k++;
    if (!part[k]) return text;
  }
  return 0;
}

static char buffer[64];

const char *number_text(int value) {
  unsigned int rest = value < 0 ? 0u - (unsigned int)value : (unsigned int)value;
  int at = 63;
  buffer[at] = 0;
  do {
    buffer[--at] = (char)('0' + rest % 10);
    rest /= 10;
  } while (rest);
  if (value < 0) buffer[--at] = '-';
  return buffer + at;
}

unsigned int text_hash(const char *text) {
  unsigned int hash = 2166136261u;
  for (; *text; text++) hash = (hash ^ (unsigned char)*text) * 16777619u;
  return hash;
}

const char *greeting = "a text of some length, with a tail";

int demo(int n) {
  char copy[64];
  text_copy(copy, greeting);
  const char *tail = text_find(copy, "tail");
  return tail ? (int)(tail - copy) + text_compare(number_text(n), "12") : -1;
}
