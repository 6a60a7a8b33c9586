/* Allocations of a run that are refused:

   REFUSE_AT N      the N-th, counted from 1;
   REFUSE_STEP N    and each N-th after it, where more than one is to be refused,
   REFUSE_MOST N    but no more than N of them: 1 where it is not said
   COUNT_TO FILE    how many allocations there were goes to this file

   Loaded before the C library, by LD_PRELOAD. */
#define _GNU_SOURCE
#include <dlfcn.h>
#include <stdio.h>
#include <stdlib.h>

static long next_one = -1, step = 1, left = 0, made = 0;

static long number(const char *name, long other) {
  const char *text = getenv(name);
  return text ? atol(text) : other;
}

static int is_refused(void) {
  if (next_one < 0) {
    next_one = number("REFUSE_AT", 0);
    step = number("REFUSE_STEP", 1);
    left = number("REFUSE_MOST", 1);
  }
  made++;
  if (left == 0 || made != next_one) return 0;
  next_one += step;
  left--;
  return 1;
}

void *malloc(size_t size) {
  static void *(*next)(size_t);
  if (!next) next = dlsym(RTLD_NEXT, "malloc");
  return is_refused() ? NULL : next(size);
}

void *realloc(void *old, size_t size) {
  static void *(*next)(void *, size_t);
  if (!next) next = dlsym(RTLD_NEXT, "realloc");
  return is_refused() ? NULL : next(old, size);
}

void *aligned_alloc(size_t align, size_t size) {
  static void *(*next)(size_t, size_t);
  if (!next) next = dlsym(RTLD_NEXT, "aligned_alloc");
  return is_refused() ? NULL : next(align, size);
}

__attribute__((destructor)) static void tell(void) {
  const char *path = getenv("COUNT_TO");
  long all = made;
  if (!path) return;
  left = 0;
  FILE *file = fopen(path, "w");
  if (!file) return;
  fprintf(file, "%ld\n", all);
  fclose(file);
}
