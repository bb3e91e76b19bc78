/* Tells how many bytes the program holds that it is loaded into by LD_PRELOAD.

   HELD_BEFORE=N   looks before the Nth allocation
   HELD_REPORT=D   writes, at the end, one line to the open file descriptor D:
                   allocations, the bytes held before the Nth, the most held from there on, and those held behind the last

   malloc, calloc, realloc, reallocarray, aligned_alloc, memalign and posix_memalign count. A block counts with all that was taken
   for it. */
#define _GNU_SOURCE
#include <dlfcn.h>
#include <errno.h>
#include <malloc.h>
#include <stdio.h>
#include <stdlib.h>
#include <string.h>
#include <unistd.h>

static void *(*real_malloc)(size_t);
static void *(*real_calloc)(size_t, size_t);
static void *(*real_realloc)(void *, size_t);
static void *(*real_aligned_alloc)(size_t, size_t);
static void (*real_free)(void *);

static long before = -1, allocations, held, held_before, most, behind_last;
static int counting;

/* what dlsym asks for while the real functions are being looked up */
static char early[4096];
static size_t early_used;

static void *early_alloc(size_t size) {
  size = (size + 15) & ~(size_t)15;
  if (size > sizeof early - early_used) return 0;
  void *place = early + early_used;
  early_used += size;
  return place;
}

static int is_early(void *place) {
  return (char *)place >= early && (char *)place < early + sizeof early;
}

static void find_real(void) {
  static int finding;
  if (real_free || finding) return;
  finding = 1;
  real_malloc = dlsym(RTLD_NEXT, "malloc");
  real_calloc = dlsym(RTLD_NEXT, "calloc");
  real_realloc = dlsym(RTLD_NEXT, "realloc");
  real_aligned_alloc = dlsym(RTLD_NEXT, "aligned_alloc");
  real_free = dlsym(RTLD_NEXT, "free");
}

static long number(const char *name) {
  const char *text = getenv(name);
  return text ? atol(text) : -1;
}

__attribute__((constructor)) static void begin(void) {
  find_real();
  before = number("HELD_BEFORE");
  counting = 1;
}

__attribute__((destructor)) static void end(void) {
  long report = number("HELD_REPORT");
  char line[100];
  counting = 0;
  int length = snprintf(line, sizeof line, "%ld %ld %ld %ld\n", allocations, held_before, most, behind_last);
  if (report >= 0 && write((int)report, line, (size_t)length) != length) _exit(99);
}

static long size_of(void *place) {
  return place && !is_early(place) ? (long)malloc_usable_size(place) : 0;
}

/* a block is to be taken */
static void begins(void) {
  if (!counting) return;
  if (++allocations == before) {
    held_before = held;
    most = held;
  }
}

/* a block was taken in place of so many bytes */
static void *taken(void *place, long instead) {
  if (!counting || !place) return place;
  held += size_of(place) - instead;
  if (held > most) most = held;
  behind_last = held;
  return place;
}

void *malloc(size_t size) {
  find_real();
  if (!real_malloc) return early_alloc(size);
  begins();
  return taken(real_malloc(size), 0);
}

void *calloc(size_t count, size_t size) {
  find_real();
  if (!real_calloc) return early_alloc(count * size);
  begins();
  return taken(real_calloc(count, size), 0);
}

void *realloc(void *place, size_t size) {
  find_real();
  if (is_early(place)) {
    void *moved = malloc(size);
    size_t there = (size_t)(early + sizeof early - (char *)place);
    if (moved) memcpy(moved, place, size < there ? size : there);
    return moved;
  }
  begins();
  long instead = size_of(place);
  return taken(real_realloc(place, size), instead);
}

void *reallocarray(void *place, size_t count, size_t size) {
  size_t all;
  if (__builtin_mul_overflow(count, size, &all)) {
    errno = ENOMEM;
    return 0;
  }
  return realloc(place, all);
}

void *aligned_alloc(size_t alignment, size_t size) {
  find_real();
  begins();
  return taken(real_aligned_alloc(alignment, size), 0);
}

void *memalign(size_t alignment, size_t size) {
  return aligned_alloc(alignment, size);
}

int posix_memalign(void **place, size_t alignment, size_t size) {
  void *found = aligned_alloc(alignment, size);
  if (!found) return ENOMEM;
  *place = found;
  return 0;
}

void free(void *place) {
  if (is_early(place)) return;
  find_real();
  if (counting) held -= size_of(place);
  real_free(place);
}
