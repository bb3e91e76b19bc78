/* Has a call on a device fail, in the program that it is loaded into by LD_PRELOAD.

   FAIL_READ=N   the Nth read of standard input fails
   FAIL_WRITE=N  the Nth write to standard output fails
   FAIL_RECEIVE=N the Nth receive of a socket fails, that would give something or the end
   FAIL_SEND=N   the Nth send to a socket fails
   FAIL_ACCEPT=N the Nth accept fails, that would give a connection; with FAIL_ACCEPTS=M so do the M - 1 behind it
   FAIL_WAIT=N   the Nth wait for sockets fails
   FAIL_WATCH=N  the Nth time that a socket is to be watched, it isn't
   FAIL_ERROR=E  the number of the error, in place of EIO
   FAIL_TAKES=0  where it is a write or a send, it takes nothing, and says so
   FAIL_SHORT=1  each read, receive, write and send moves a byte at most */
#define _GNU_SOURCE
#include <dlfcn.h>
#include <errno.h>
#include <poll.h>
#include <stdlib.h>
#include <sys/epoll.h>
#include <sys/socket.h>
#include <sys/uio.h>
#include <unistd.h>

static long reads, writes, receives, sends, accepts, waits, watches;

static long number(const char *name) {
  const char *text = getenv(name);
  return text ? atol(text) : 0;
}

static size_t room(size_t size) { return size > 1 && number("FAIL_SHORT") ? 1 : size; }

static int failed(void) {
  long error = number("FAIL_ERROR");
  errno = error ? (int)error : EIO;
  return -1;
}

static ssize_t failed_write(void) { return getenv("FAIL_TAKES") ? number("FAIL_TAKES") : failed(); }

ssize_t read(int descriptor, void *bytes, size_t size) {
  static ssize_t (*real)(int, void *, size_t);
  if (!real) real = dlsym(RTLD_NEXT, "read");
  if (descriptor != 0) return real(descriptor, bytes, size);
  return ++reads == number("FAIL_READ") ? failed() : real(descriptor, bytes, room(size));
}

ssize_t write(int descriptor, const void *bytes, size_t size) {
  static ssize_t (*real)(int, const void *, size_t);
  if (!real) real = dlsym(RTLD_NEXT, "write");
  if (descriptor != 1) return real(descriptor, bytes, size);
  return ++writes == number("FAIL_WRITE") ? failed_write() : real(descriptor, bytes, room(size));
}

/* (what is there stays there, where the receive fails) */
ssize_t recv(int descriptor, void *bytes, size_t size, int flags) {
  static ssize_t (*real)(int, void *, size_t, int);
  if (!real) real = dlsym(RTLD_NEXT, "recv");
  if (number("FAIL_RECEIVE")) {
    char first;
    ssize_t got = real(descriptor, &first, 1, flags | MSG_PEEK);
    if (got < 0) return got;
    if (++receives == number("FAIL_RECEIVE")) return failed();
  }
  return real(descriptor, bytes, room(size), flags);
}

ssize_t send(int descriptor, const void *bytes, size_t size, int flags) {
  static ssize_t (*real)(int, const void *, size_t, int);
  if (!real) real = dlsym(RTLD_NEXT, "send");
  return ++sends == number("FAIL_SEND") ? failed_write() : real(descriptor, bytes, room(size), flags);
}

int accept4(int descriptor, struct sockaddr *address, socklen_t *size, int flags) {
  static int (*real)(int, struct sockaddr *, socklen_t *, int);
  if (!real) real = dlsym(RTLD_NEXT, "accept4");
  long first = number("FAIL_ACCEPT"), many = number("FAIL_ACCEPTS");
  struct pollfd waiting = {.fd = descriptor, .events = POLLIN};
  if (!first) return real(descriptor, address, size, flags);
  /* (one that comes from here on is told of anew) */
  if (poll(&waiting, 1, 0) != 1) {
    errno = EAGAIN;
    return -1;
  }
  accepts++;
  if (accepts >= first && accepts < first + (many ? many : 1)) return failed();
  return real(descriptor, address, size, flags);
}

int epoll_wait(int descriptor, struct epoll_event *events, int most, int milliseconds) {
  static int (*real)(int, struct epoll_event *, int, int);
  if (!real) real = dlsym(RTLD_NEXT, "epoll_wait");
  return ++waits == number("FAIL_WAIT") ? failed() : real(descriptor, events, most, milliseconds);
}

int epoll_ctl(int descriptor, int what, int watched, struct epoll_event *event) {
  static int (*real)(int, int, int, struct epoll_event *);
  if (!real) real = dlsym(RTLD_NEXT, "epoll_ctl");
  return what != EPOLL_CTL_DEL && ++watches == number("FAIL_WATCH") ? failed() : real(descriptor, what, watched, event);
}
