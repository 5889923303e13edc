/* Loaded before the C library, makes one allocation of a program fail: the one with the number FAIL_ALLOC, counted from 1.
   Then it makes the file FAILED_ALLOC, so that a run can be seen to have met it. */
#define _GNU_SOURCE
#include <dlfcn.h>
#include <errno.h>
#include <fcntl.h>
#include <stdlib.h>
#include <unistd.h>

static unsigned long met, wanted;

static int fails(void) {
  const char *text;
  if (!wanted) {
    text = getenv("FAIL_ALLOC");
    wanted = text ? strtoul(text, NULL, 10) : -1ul;
  }
  if (++met != wanted) return 0;
  text = getenv("FAILED_ALLOC");
  if (text) close(open(text, O_CREAT | O_WRONLY, 0600));
  errno = ENOMEM;
  return 1;
}

void *malloc(size_t n) {
  static void *(*real)(size_t);
  if (!real) real = (void *(*)(size_t))dlsym(RTLD_NEXT, "malloc");
  return fails() ? NULL : real(n);
}

void *realloc(void *p, size_t n) {
  static void *(*real)(void *, size_t);
  if (!real) real = (void *(*)(void *, size_t))dlsym(RTLD_NEXT, "realloc");
  return fails() ? NULL : real(p, n);
}
