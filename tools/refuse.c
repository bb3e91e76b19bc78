/* Refuses allocations of the program that it is loaded into by LD_PRELOAD.

   REFUSE_NTH=N    refuses the Nth allocation alone
   REFUSE_FROM=N   refuses the Nth allocation and all after it
   REFUSE_REPORT=D writes, at the end, one line to the open file descriptor D:
                   allocations, how many of them came before standard input was first read
                   (-1: it was never read), how many were refused, and how many bytes all asked for

   REFUSE_CASES=D  makes many cases of one run, by the socket D. The process waits at its start, and again each time it has read all of
                   standard input, which must be a file: it writes three zeros to the socket and reads commands of three numbers.
                     0 0 0       goes on, with the main part or with the present content of the file; nothing is refused
                     1 N WINDOW  forks: the fork reads the file from its beginning, and the Nth allocation of the window is refused
                                 (none if N is 0)
                     2 N WINDOW  the same, but all later allocations of the window are refused too
                   The reply to a fork is its status, and how many allocations of the window occurred and were refused. If the
                   socket is closed, the process goes on and reads the end of its input.
                   Window -1 is the whole run. Window 0 ends at the first read of standard input. Window K, from 1, begins with the
                   read of line K and ends with the read of the next; up to there each read returns one line at most. The last window
                   begins with the read of the end of input and ends with the run.

   malloc, calloc, realloc, reallocarray, aligned_alloc, memalign and posix_memalign count. */
#define _GNU_SOURCE
#include <dlfcn.h>
#include <errno.h>
#include <stdio.h>
#include <stdlib.h>
#include <string.h>
#include <sys/mman.h>
#include <sys/socket.h>
#include <sys/wait.h>
#include <unistd.h>

static void *(*real_malloc)(size_t);
static void *(*real_calloc)(size_t, size_t);
static void *(*real_realloc)(void *, size_t);
static void *(*real_aligned_alloc)(size_t, size_t);
static ssize_t (*real_read)(int, void *, size_t);
static void (*real_free)(void *);

static long nth = -1, from = -1, allocations, before_input = -1, refusals, asked;
static int counting;

/* The socket of REFUSE_CASES or -1; whether this process is a fork, its window, the window of its refusals, and whether the next read
   begins a line; the counts of that window, which all forks share. */
static int cases = -1, is_copy, is_at_line;
static long window, refused_window;
static struct counts { long allocations, refusals; } *counts;

/* what dlsym asks for while the real functions are being looked up */
static char early[4096];
static size_t early_used;

static void *early_calloc(size_t size) {
  size = (size + 15) & ~(size_t)15;
  if (size > sizeof early - early_used) return 0;
  void *place = early + early_used;
  early_used += size;
  return place;
}

static int is_early(void *place) {
  return (char *)place >= early && (char *)place < early + sizeof early;
}

static void find_real(void) {
  static int finding;
  if (real_read || finding) return;
  finding = 1;
  real_malloc = dlsym(RTLD_NEXT, "malloc");
  real_calloc = dlsym(RTLD_NEXT, "calloc");
  real_realloc = dlsym(RTLD_NEXT, "realloc");
  real_aligned_alloc = dlsym(RTLD_NEXT, "aligned_alloc");
  real_free = dlsym(RTLD_NEXT, "free");
  real_read = dlsym(RTLD_NEXT, "read");
}

static long number(const char *name) {
  const char *text = getenv(name);
  return text ? atol(text) : -1;
}

static void enter(long next) {
  window = next;
  counting = refused_window < 0 || window == refused_window;
}

/* Forks and waits for the fork. Returns 1 in the fork. */
static int is_fork(const long *what) {
  memset(counts, 0, sizeof *counts);
  pid_t copy = fork();
  if (copy == 0) {
    long place = what[1] > 0 ? what[1] : -1;
    nth = what[0] == 1 ? place : -1;
    from = what[0] == 2 ? place : -1;
    is_copy = is_at_line = 1;
    refused_window = what[2];
    lseek(0, 0, SEEK_SET);
    enter(0);
    return 1;
  }
  int status = 0;
  if (copy < 0 || waitpid(copy, &status, 0) != copy) _exit(99);
  long reply[] = {WIFEXITED(status) ? WEXITSTATUS(status) : -WTERMSIG(status), counts->allocations, counts->refusals};
  if (send(cases, reply, sizeof reply, MSG_NOSIGNAL) != sizeof reply) _exit(99);
  return 0;
}

/* Waits for commands. Returns 0 if the socket is closed. */
static int goes_on(void) {
  static const long zeros[3];
  long what[3];
  if (send(cases, zeros, sizeof zeros, MSG_NOSIGNAL) != sizeof zeros) return 0;
  for (;;) {
    if (real_read(cases, what, sizeof what) != sizeof what) return 0;
    if (what[0] == 0) {
      lseek(0, 0, SEEK_SET);
      return 1;
    }
    if (is_fork(what)) return 1;
  }
}

__attribute__((constructor)) static void begin(void) {
  find_real();
  cases = (int)number("REFUSE_CASES");
  if (cases >= 0) {
    counts = mmap(0, sizeof *counts, PROT_READ | PROT_WRITE, MAP_SHARED | MAP_ANONYMOUS, -1, 0);
    if (counts == MAP_FAILED) _exit(99);
    goes_on();
    return;
  }
  nth = number("REFUSE_NTH");
  from = number("REFUSE_FROM");
  counting = 1;
}

__attribute__((destructor)) static void end(void) {
  long report = number("REFUSE_REPORT");
  char line[80];
  counting = 0;
  int length = snprintf(line, sizeof line, "%ld %ld %ld %ld\n", allocations, before_input, refusals, asked);
  if (report >= 0 && write((int)report, line, (size_t)length) != length) _exit(99);
}

static int is_refused(size_t size) {
  if (!counting) return 0;
  allocations++;
  asked += (long)size;
  int refused = allocations == nth || (from > 0 && allocations >= from);
  refusals += refused;
  if (counts) *counts = (struct counts){allocations, refusals};
  if (refused) errno = ENOMEM;
  return refused;
}

void *malloc(size_t size) {
  find_real();
  if (!real_malloc) return early_calloc(size);
  return is_refused(size) ? 0 : real_malloc(size);
}

void *calloc(size_t count, size_t size) {
  find_real();
  if (!real_calloc) return early_calloc(count * size);
  return is_refused(count * size) ? 0 : real_calloc(count, size);
}

void *realloc(void *place, size_t size) {
  find_real();
  if (is_early(place)) {
    void *moved = real_malloc(size);
    size_t held = (size_t)(early + sizeof early - (char *)place);
    if (moved) memcpy(moved, place, size < held ? size : held);
    return moved;
  }
  return is_refused(size) ? 0 : real_realloc(place, size);
}

void *reallocarray(void *place, size_t count, size_t size) {
  size_t all;
  if (__builtin_mul_overflow(count, size, &all)) {
    errno = ENOMEM;
    return 0;
  }
  return realloc(place, all);
}

void *aligned_alloc(size_t alignment, size_t size) {
  find_real();
  return is_refused(size) ? 0 : real_aligned_alloc(alignment, size);
}

void *memalign(size_t alignment, size_t size) {
  return aligned_alloc(alignment, size);
}

int posix_memalign(void **place, size_t alignment, size_t size) {
  void *found = aligned_alloc(alignment, size);
  if (!found) return ENOMEM;
  *place = found;
  return 0;
}

void free(void *place) {
  if (!is_early(place)) {
    find_real();
    real_free(place);
  }
}

/* A read of a fork: up to the refused window one line or a part of it. */
static ssize_t read_of_fork(void *bytes, size_t size) {
  if (refused_window >= 0 && is_at_line) enter(window + 1);
  if (refused_window < window) return real_read(0, bytes, size);
  ssize_t got = real_read(0, bytes, size);
  char *end = got > 0 ? memchr(bytes, '\n', (size_t)got) : 0;
  is_at_line = end != 0;
  if (!end) return got;
  ssize_t kept = end + 1 - (char *)bytes;
  lseek(0, kept - got, SEEK_CUR);
  return kept;
}

ssize_t read(int descriptor, void *bytes, size_t size) {
  find_real();
  if (descriptor != 0) return real_read(descriptor, bytes, size);
  if (before_input < 0) before_input = allocations;
  while (!is_copy) {
    ssize_t got = real_read(0, bytes, size);
    if (got != 0 || cases < 0 || !goes_on()) return got;
  }
  return read_of_fork(bytes, size);
}
