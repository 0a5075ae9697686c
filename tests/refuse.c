/* Loaded before the C library, this lets requests of a process for memory fail: the one whose number, from 1, is in the
   variable REFUSE, and all from the one on whose number is in REFUSE_FROM. Descriptor 9 gets a line for each failed one. If
   REFUSE_NONE is set, none fails, and descriptor 9 gets a line for each request. */
#include <errno.h>
#include <stdlib.h>
#include <unistd.h>

extern void *__libc_malloc(size_t size);
extern void *__libc_calloc(size_t count, size_t size);
extern void *__libc_realloc(void *block, size_t size);
extern void *__libc_memalign(size_t alignment, size_t size);

static long requests;

/* The number in a variable, and 0 if it isn't set. */
static long number_of(const char *name) {
  const char *digits = getenv(name);
  return digits ? atol(digits) : 0;
}

static int is_refused(void) {
  long request = __atomic_add_fetch(&requests, 1, __ATOMIC_SEQ_CST);
  long first = number_of("REFUSE_FROM");
  int counts = number_of("REFUSE_NONE") != 0;
  if (!counts && request != number_of("REFUSE") && (first == 0 || request < first)) {
    return 0;
  }
  if (write(9, "request\n", 8) != 8) {
    _exit(99);
  }
  errno = ENOMEM;
  return !counts;
}

void *malloc(size_t size) { return is_refused() ? NULL : __libc_malloc(size); }

void *calloc(size_t count, size_t size) { return is_refused() ? NULL : __libc_calloc(count, size); }

void *realloc(void *block, size_t size) { return is_refused() ? NULL : __libc_realloc(block, size); }

void *memalign(size_t alignment, size_t size) { return is_refused() ? NULL : __libc_memalign(alignment, size); }

void *aligned_alloc(size_t alignment, size_t size) { return memalign(alignment, size); }

int posix_memalign(void **block, size_t alignment, size_t size) {
  *block = memalign(alignment, size);
  return *block ? 0 : ENOMEM;
}
