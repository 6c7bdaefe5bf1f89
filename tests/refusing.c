/* Refuses one allocation of a program, and counts them all: preloaded by tests/allocations.py.
 *
 * REFUSE_AT is the number of the allocation that is refused, counted from 1; REFUSE_COUNT is the descriptor that the
 * count is written to at the end. */
#include <errno.h>
#include <stddef.h>
#include <stdio.h>
#include <stdlib.h>
#include <unistd.h>

extern void *__libc_malloc(size_t size);
extern void *__libc_realloc(void *old, size_t size);

static long refused, count;

__attribute__((constructor)) static void begin(void) {
  const char *at = getenv("REFUSE_AT");
  refused = at ? atol(at) : 0;
  count = 0;
}

static int is_refused(void) {
  if (++count != refused)
    return 0;
  errno = ENOMEM;
  return 1;
}

void *malloc(size_t size) { return is_refused() ? NULL : __libc_malloc(size); }

void *realloc(void *old, size_t size) { return is_refused() ? NULL : __libc_realloc(old, size); }

__attribute__((destructor)) static void end(void) {
  const char *to = getenv("REFUSE_COUNT");
  if (to) {
    char line[32];
    int length = snprintf(line, sizeof line, "%ld\n", count);
    if (length > 0 && write(atoi(to), line, (size_t)length) < 0)
      _exit(1);
  }
}
