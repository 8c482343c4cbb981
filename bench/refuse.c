// Loaded before a program by LD_PRELOAD, it refuses the program's request for memory number REFUSE, counted from 1, and no other.
#include <errno.h>
#include <stddef.h>
#include <stdlib.h>

void *__libc_malloc(size_t), *__libc_realloc(void *, size_t), *__libc_calloc(size_t, size_t), *__libc_memalign(size_t, size_t);

static long refused = -1, count;

// Whether this request is the one.
static int refuse(void) {
  if (refused < 0) {
    const char *word = getenv("REFUSE");
    refused = word ? atol(word) : 0;
  }
  if (__atomic_add_fetch(&count, 1, __ATOMIC_SEQ_CST) != refused) return 0;
  errno = ENOMEM;
  return 1;
}

void *malloc(size_t size) { return refuse() ? NULL : __libc_malloc(size); }

void *realloc(void *block, size_t size) { return refuse() ? NULL : __libc_realloc(block, size); }

void *calloc(size_t number, size_t size) { return refuse() ? NULL : __libc_calloc(number, size); }

void *aligned_alloc(size_t alignment, size_t size) { return refuse() ? NULL : __libc_memalign(alignment, size); }

int posix_memalign(void **block, size_t alignment, size_t size) {
  void *found = refuse() ? NULL : __libc_memalign(alignment, size);
  if (found == NULL) return ENOMEM;
  *block = found;
  return 0;
}
