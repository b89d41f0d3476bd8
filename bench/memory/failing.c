/* Makes the Nth allocation of a program fail, where FAIL_ALLOCATION is N. It is preloaded, and tells in the file
   ALLOCATIONS that the Nth came. */
#define _GNU_SOURCE
#include <dlfcn.h>
#include <errno.h>
#include <fcntl.h>
#include <stdlib.h>
#include <unistd.h>

static long count, failing;

static int fails(void) {
  if (failing == 0) {
    const char *number = getenv("FAIL_ALLOCATION");
    failing = number ? atol(number) : -1;
  }
  if (++count != failing) return 0;
  const char *told = getenv("ALLOCATIONS");
  int file = told ? open(told, O_CREAT | O_WRONLY, 0600) : -1;
  if (file >= 0) close(file);
  errno = ENOMEM;
  return 1;
}

void *malloc(size_t size) {
  static void *(*next)(size_t);
  if (!next) next = (void *(*)(size_t))dlsym(RTLD_NEXT, "malloc");
  return fails() ? NULL : next(size);
}

void *realloc(void *old, size_t size) {
  static void *(*next)(void *, size_t);
  if (!next) next = (void *(*)(void *, size_t))dlsym(RTLD_NEXT, "realloc");
  return fails() ? NULL : next(old, size);
}

