/* Preloaded into a server before the library of fusekeep-mount: measures how long each request takes from the read that brings it to the
 * write that answers it, how much of that its flushes are, all flushes, and the bytes that are written into the store and its log. The sums
 * are in the file of the descriptor that TIMES names. The library makes its calls by syscall(2), which is caught here. */
#define _GNU_SOURCE
#include <dlfcn.h>
#include <errno.h>
#include <stdarg.h>
#include <stdbool.h>
#include <stdint.h>
#include <stdlib.h>
#include <sys/mman.h>
#include <sys/syscall.h>
#include <time.h>
#include <unistd.h>

enum { ARGUMENTS = 6 };

/* Times are nanoseconds. bench/where reads them. */
static struct times {
  _Atomic int64_t requests, taken, flushed_within, flushed, written;
} own, *times = &own;

static int64_t begun; /* when the request was read that isn't answered; 0 for none */

static int64_t nanoseconds(void) {
  struct timespec now;
  clock_gettime(CLOCK_MONOTONIC, &now);
  return now.tv_sec * INT64_C(1000000000) + now.tv_nsec;
}

__attribute__((constructor)) static void map_times(void) {
  const char *number = getenv("TIMES");
  void *memory = number ? mmap(NULL, sizeof own, PROT_READ | PROT_WRITE, MAP_SHARED, atoi(number), 0) : MAP_FAILED;
  if (memory != MAP_FAILED) times = memory;
}

long syscall(long number, ...) {
  long (*next)(long, ...) = (long (*)(long, ...))dlsym(RTLD_NEXT, "syscall");
  long words[ARGUMENTS];
  va_list others;
  va_start(others, number);
  for (int i = 0; i < ARGUMENTS; i++) words[i] = va_arg(others, long);
  va_end(others);
  int64_t before = nanoseconds();
  long done = next(number, words[0], words[1], words[2], words[3], words[4], words[5]);
  int error = errno;
  int64_t taken = nanoseconds() - before;
  bool is_flush = number == SYS_fdatasync || number == SYS_fsync;
  if (is_flush) times->flushed += taken;
  if (is_flush && begun != 0) times->flushed_within += taken;
  if (number == SYS_pwrite64 && done > 0) times->written += done;
  errno = error;
  return done;
}

ssize_t read(int file, void *bytes, size_t size) {
  ssize_t (*next)(int, void *, size_t) = (ssize_t(*)(int, void *, size_t))dlsym(RTLD_NEXT, "read");
  if (file == STDIN_FILENO) begun = 0;
  ssize_t got = next(file, bytes, size);
  if (file == STDIN_FILENO && got > 0) begun = nanoseconds();
  return got;
}

ssize_t write(int file, const void *bytes, size_t size) {
  ssize_t (*next)(int, const void *, size_t) = (ssize_t(*)(int, const void *, size_t))dlsym(RTLD_NEXT, "write");
  ssize_t put = next(file, bytes, size);
  if (file != STDOUT_FILENO || begun == 0) return put;
  times->requests++;
  times->taken += nanoseconds() - begun;
  begun = 0;
  return put;
}

ssize_t __write(int file, const void *bytes, size_t size) __attribute__((alias("write")));
