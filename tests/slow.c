/* Reads of standard input and writes of standard output go by N bytes at most, and fail:

   READ_MOST N            a read gives at most N bytes
   READ_FAILS_AFTER N     each read fails once N bytes were given, by EIO;
   READ_IS_INTERRUPTED N  or the next N reads, by EINTR, and then no more
   WRITE_MOST N           a write takes at most N bytes, one of standard error too
   WRITE_FAILS_AFTER N    each write of standard output fails once N succeeded, by EIO

   Loaded before the C library, by LD_PRELOAD. */
#define _GNU_SOURCE
#include <errno.h>
#include <stdlib.h>
#include <sys/syscall.h>
#include <unistd.h>

static long number(const char *name) {
  const char *text = getenv(name);
  return text ? atol(text) : -1;
}

static size_t at_most(const char *name, size_t count) {
  long most = number(name);
  return most >= 0 && count > (size_t)most ? (size_t)most : count;
}

ssize_t read(int file, void *bytes, size_t count) {
  static long given = 0, interrupted = 0;
  if (file == 0) {
    long most = number("READ_FAILS_AFTER"), times = number("READ_IS_INTERRUPTED");
    if (most >= 0 && given >= most && (times < 0 || interrupted < times)) {
      if (times >= 0) interrupted++;
      errno = times < 0 ? EIO : EINTR;
      return -1;
    }
    count = at_most("READ_MOST", count);
  }
  ssize_t got = syscall(SYS_read, file, bytes, count);
  if (file == 0 && got > 0) given += got;
  return got;
}

ssize_t write(int file, const void *bytes, size_t count) {
  static long succeeded = 0;
  if (file == 1) {
    long most = number("WRITE_FAILS_AFTER");
    if (most >= 0 && succeeded >= most) {
      errno = EIO;
      return -1;
    }
  }
  if (file == 1 || file == 2) count = at_most("WRITE_MOST", count);
  ssize_t taken = syscall(SYS_write, file, bytes, count);
  if (file == 1 && taken > 0) succeeded++;
  return taken;
}
