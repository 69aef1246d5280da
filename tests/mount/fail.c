/* Preloaded into a server before the library of fusekeep-mount: while the file is there that FAIL_WHILE names, a flush of the store's log
 * fails as one of a disk with a fault, or by the error FAIL_BY; with FAIL_KILLS the server is killed in it. With FAIL_SUFFIX it is one of
 * the file whose name ends so, after the server has written to it: an opening flushes it, too. The library makes its calls by syscall(2). */
#define _GNU_SOURCE
#include <dlfcn.h>
#include <errno.h>
#include <fcntl.h>
#include <signal.h>
#include <stdarg.h>
#include <stdbool.h>
#include <stdlib.h>
#include <string.h>
#include <sys/stat.h>
#include <sys/syscall.h>
#include <unistd.h>

enum { ARGUMENTS = 6 };

static long failing_file = -1;
static bool is_written;

static bool fails(void) {
  const char *path = getenv("FAIL_WHILE");
  struct stat found;
  return path && stat(path, &found) == 0;
}

static int error(void) {
  const char *number = getenv("FAIL_BY");
  return number ? atoi(number) : EIO;
}

static bool is_failing(const char *path) {
  const char *named = getenv("FAIL_SUFFIX"), *suffix = named ? named : "-wal";
  size_t length = strlen(path), end = strlen(suffix);
  return length > end && strcmp(path + length - end, suffix) == 0;
}

static bool is_flush(long number) {
  return number == SYS_fsync || number == SYS_fdatasync;
}

long syscall(long number, ...) {
  long (*next)(long, ...) = (long (*)(long, ...))dlsym(RTLD_NEXT, "syscall");
  long words[ARGUMENTS];
  va_list others;
  va_start(others, number);
  for (int i = 0; i < ARGUMENTS; i++) words[i] = va_arg(others, long);
  va_end(others);
  bool is_due = is_written || !getenv("FAIL_SUFFIX"), fails_now = is_flush(number) && words[0] == failing_file && is_due && fails();
  if (number == SYS_pwrite64 && words[0] == failing_file) is_written = true;
  if (fails_now && getenv("FAIL_KILLS")) raise(SIGKILL);
  if (fails_now) return errno = error(), -1;
  long done = next(number, words[0], words[1], words[2], words[3], words[4], words[5]);
  if (number == SYS_openat && done >= 0 && !(words[2] & O_PATH) && is_failing((const char *)words[1])) failing_file = done;
  return done;
}
