// Stands before the allocator, by `-Wl,--wrap=malloc,--wrap=calloc,--wrap=realloc,--wrap=free`: refuses the growth whose number the
// variable REFUSED has, says at the end how many there were, and ends with status 70 where a block wasn't freed.
#include <stdio.h>
#include <stdlib.h>
#include <unistd.h>

void *__real_malloc(size_t n);
void *__real_calloc(size_t count, size_t n);
void *__real_realloc(void *p, size_t n);
void __real_free(void *p);

static long count, live;

static int refuse(void) {
  const char *number = getenv("REFUSED");
  return ++count == (number ? atol(number) : 0);
}

void *__wrap_malloc(size_t n) {
  void *p = refuse() ? 0 : __real_malloc(n);
  if (p) live++;
  return p;
}

void *__wrap_calloc(size_t items, size_t n) {
  void *p = refuse() ? 0 : __real_calloc(items, n);
  if (p) live++;
  return p;
}

void *__wrap_realloc(void *p, size_t n) {
  void *q = refuse() ? 0 : __real_realloc(p, n);
  if (q && !p) live++;
  return q;
}

void __wrap_free(void *p) {
  if (p) live--;
  __real_free(p);
}

__attribute__((destructor)) static void end(void) {
  fprintf(stderr, "growths=%ld live=%ld\n", count, live);
  if (live) fflush(0), _exit(70);
}
