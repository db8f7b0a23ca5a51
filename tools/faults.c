/* Loaded before the C library, it lets one call of a program fail: of the kind that FAULT_KIND names, the one with the number FAULT_AT, from 1 up.
   `memory` is a request for memory, which is refused; `read` and `write` are calls of that name, which fail; `room` is a write to standard output, which
   takes only FAULT_AT bytes in all and then fails. At the end it writes two numbers to the file number FAULT_TOLD: how many calls of the kind there were, and
   whether the one that failed asked for nothing that its block didn't have, so that a program may go on with the block as it is. */
#define _GNU_SOURCE
#include <errno.h>
#include <malloc.h>
#include <stdio.h>
#include <stdlib.h>
#include <string.h>
#include <sys/syscall.h>
#include <unistd.h>

void *__libc_malloc(size_t size);
void *__libc_calloc(size_t count, size_t size);
void *__libc_realloc(void *old, size_t size);
void *__libc_memalign(size_t align, size_t size);

enum kind { NONE, MEMORY, READ, WRITE, ROOM };
static enum kind kind;
static unsigned long at, seen, taken;
static int told = -1, needless;

__attribute__((constructor)) static void begin(void) {
  static const char *const names[] = {"", "memory", "read", "write", "room"};
  const char *name = getenv("FAULT_KIND"), *number = getenv("FAULT_AT"), *file = getenv("FAULT_TOLD");
  at = number ? strtoul(number, 0, 10) : 0;
  told = file ? atoi(file) : -1;
  for (int k = MEMORY; name && k <= ROOM; k++)
    if (!strcmp(name, names[k]))
      kind = k;
}

__attribute__((destructor)) static void end(void) {
  char text[32];
  int length = snprintf(text, sizeof text, "%lu %d\n", seen, needless);
  if (told >= 0)
    syscall(SYS_write, told, text, length);
}

/* Whether this call is the one that fails. */
static int fails(enum kind of) { return kind == of && ++seen == at; }

static int refused(void) {
  if (!fails(MEMORY))
    return 0;
  errno = ENOMEM;
  return 1;
}

void *malloc(size_t size) { return refused() ? 0 : __libc_malloc(size); }
void *calloc(size_t count, size_t size) { return refused() ? 0 : __libc_calloc(count, size); }
void *aligned_alloc(size_t align, size_t size) { return refused() ? 0 : __libc_memalign(align, size); }

void *realloc(void *old, size_t size) {
  if (!refused())
    return __libc_realloc(old, size);
  needless = old && size <= malloc_usable_size(old);
  return 0;
}

int posix_memalign(void **out, size_t align, size_t size) {
  void *block = refused() ? 0 : __libc_memalign(align, size);
  if (!block)
    return ENOMEM;
  *out = block;
  return 0;
}

ssize_t read(int file, void *bytes, size_t size) {
  if (fails(READ)) {
    errno = EIO;
    return -1;
  }
  return syscall(SYS_read, file, bytes, size);
}

ssize_t write(int file, const void *bytes, size_t size) {
  if (fails(WRITE)) {
    errno = EIO;
    return -1;
  }
  if (kind == ROOM && file == STDOUT_FILENO) {
    seen++;
    if (size > 0 && taken == at) {
      errno = ENOSPC;
      return -1;
    }
    size = size < at - taken ? size : at - taken;
    taken += size;
  }
  return syscall(SYS_write, file, bytes, size);
}
