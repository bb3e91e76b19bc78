/* Has calls on files fail, or ends the program at one, in the program that it is loaded into by LD_PRELOAD.

   FAULT_IN=TEXT    the calls that count are those on paths that end with this text or have it before a point or a slash, and those on
                    what was opened by such a path; without it none counts
   FAULT_LOG=PATH   each of them is written to this file before it is made: its name, and its path
   FAULT_AT=N       the program is killed at the Nth of them
   FAULT_BYTES=N    it is killed once N bytes were written by them
   FAULT_ERROR=E    in place of that they fail by the error of this number; where it is 0, a write takes nothing, and says so
   FAULT_MANY=M     so do the M - 1 calls behind it
   FAULT_SHORT=1    each of their reads and writes moves a byte at most
   FAULT_SLOW=S     each sync of a file takes S seconds more */
#define _GNU_SOURCE
#include <errno.h>
#include <fcntl.h>
#include <signal.h>
#include <stdarg.h>
#include <stdio.h>
#include <stdlib.h>
#include <string.h>
#include <sys/stat.h>
#include <sys/syscall.h>
#include <time.h>
#include <unistd.h>

#define DESCRIPTORS 2048
#define LENGTH 256

static char paths[DESCRIPTORS][LENGTH];
static long calls, written;

static long number(const char *name, long otherwise) {
  const char *text = getenv(name);
  return text ? atol(text) : otherwise;
}

static int counts(const char *path) {
  const char *text = getenv("FAULT_IN");
  const char *found = text && path ? strstr(path, text) : 0;
  return found && strchr("./", found[strlen(text)]) != 0;
}

static const char *path_of(int descriptor) {
  return descriptor >= 0 && descriptor < DESCRIPTORS && paths[descriptor][0] ? paths[descriptor] : 0;
}

static void keep(int descriptor, const char *path) {
  if (descriptor >= 0 && descriptor < DESCRIPTORS) snprintf(paths[descriptor], LENGTH, "%s", path);
}

static void tell(const char *name, const char *path) {
  const char *log = getenv("FAULT_LOG");
  char line[2 * LENGTH];
  if (!log) return;
  int length = snprintf(line, sizeof line, "%s %s\n", name, path);
  int file = (int)syscall(SYS_openat, AT_FDCWD, log, O_WRONLY | O_CREAT | O_APPEND, 0600);
  if (file < 0 || syscall(SYS_write, file, line, length) != length) _exit(99);
  syscall(SYS_close, file);
}

/* The program is killed here, or the call fails: it is answered. */
static int ends(void) {
  long error = number("FAULT_ERROR", -1);
  if (error < 0) {
    syscall(SYS_kill, getpid(), SIGKILL);
    _exit(99);
  }
  errno = (int)error;
  return error ? -1 : 0;
}

/* Whether this call is one at which it ends. */
static int is_last(const char *name, const char *path) {
  long first = number("FAULT_AT", 0);
  tell(name, path);
  calls++;
  return first > 0 && calls >= first && calls < first + number("FAULT_MANY", 1);
}

static int opened(int folder, const char *path, int flags, unsigned mode) {
  if (!counts(path)) return (int)syscall(SYS_openat, folder, path, flags, mode);
  if (is_last(flags & O_CREAT ? "create" : "open", path)) return ends();
  int descriptor = (int)syscall(SYS_openat, folder, path, flags, mode);
  if (descriptor >= 0) keep(descriptor, path);
  return descriptor;
}

#define MODE(flags, mode)          \
  unsigned mode = 0;               \
  if ((flags) & O_CREAT) {         \
    va_list more;                  \
    va_start(more, flags);         \
    mode = va_arg(more, unsigned); \
    va_end(more);                  \
  }

int open(const char *path, int flags, ...) {
  MODE(flags, mode)
  return opened(AT_FDCWD, path, flags, mode);
}

int open64(const char *path, int flags, ...) {
  MODE(flags, mode)
  return opened(AT_FDCWD, path, flags, mode);
}

int openat(int folder, const char *path, int flags, ...) {
  MODE(flags, mode)
  return opened(folder, path, flags, mode);
}

int openat64(int folder, const char *path, int flags, ...) {
  MODE(flags, mode)
  return opened(folder, path, flags, mode);
}

int statx(int folder, const char *restrict path, int flags, unsigned mask, struct statx *restrict found) {
  const char *place = *path ? path : path_of(folder);
  if (place && (place != path || counts(path)) && is_last("look", place)) return ends();
  return (int)syscall(SYS_statx, folder, path, flags, mask, found);
}

int unlink(const char *path) {
  if (counts(path) && is_last("remove", path)) return ends();
  return (int)syscall(SYS_unlinkat, AT_FDCWD, path, 0);
}

int rename(const char *from, const char *to) {
  if (counts(from) && is_last("rename", from)) return ends();
  return (int)syscall(SYS_renameat2, AT_FDCWD, from, AT_FDCWD, to, 0);
}

static int synced(long number_of_call, int descriptor) {
  const char *path = path_of(descriptor);
  struct stat found;
  if (!path) return (int)syscall(number_of_call, descriptor);
  if (is_last("sync", path)) return ends();
  if (number("FAULT_SLOW", 0) && fstat(descriptor, &found) == 0 && S_ISREG(found.st_mode)) {
    struct timespec left = {.tv_sec = number("FAULT_SLOW", 0)};
    while (nanosleep(&left, &left)) continue;
  }
  return (int)syscall(number_of_call, descriptor);
}

int fsync(int descriptor) { return synced(SYS_fsync, descriptor); }

int fdatasync(int descriptor) { return synced(SYS_fdatasync, descriptor); }

ssize_t write(int descriptor, const void *bytes, size_t size) {
  const char *path = path_of(descriptor);
  long room = number("FAULT_BYTES", -1) - written;
  if (!path) return syscall(SYS_write, descriptor, bytes, size);
  if (is_last("write", path)) return ends();
  if (size > 1 && number("FAULT_SHORT", 0)) size = 1;
  if (number("FAULT_BYTES", -1) < 0 || (long)size <= room) {
    ssize_t taken = syscall(SYS_write, descriptor, bytes, size);
    if (taken > 0) written += taken;
    return taken;
  }
  /* (a front of it is taken before) */
  if (room <= 0) return ends();
  ssize_t taken = syscall(SYS_write, descriptor, bytes, (size_t)room);
  if (taken > 0) written += taken;
  return number("FAULT_ERROR", -1) < 0 ? ends() : taken;
}

ssize_t read(int descriptor, void *bytes, size_t size) {
  const char *path = path_of(descriptor);
  if (!path) return syscall(SYS_read, descriptor, bytes, size);
  if (is_last("read", path)) return ends();
  return syscall(SYS_read, descriptor, bytes, size > 1 && number("FAULT_SHORT", 0) ? 1 : size);
}

int close(int descriptor) {
  const char *path = path_of(descriptor);
  if (path) {
    char closed[LENGTH];
    memcpy(closed, path, LENGTH);
    paths[descriptor][0] = 0;
    if (is_last("close", closed)) {
      syscall(SYS_close, descriptor);
      return ends();
    }
  }
  return (int)syscall(SYS_close, descriptor);
}
