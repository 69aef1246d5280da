/* The files of the store, as a server writes and flushes them. A server commits by writing to the log, after its header. What it writes
 * into the header and into the store are commits that were made before, and the flush of the log that is owed is made then. So it is before
 * something is written upon contents, or they are cut: see ordered.c. A program that has no log may commit by any write. */
#define _GNU_SOURCE
#include "gather.h"
#include <fcntl.h>
#include <stdarg.h>
#include <stdlib.h>
#include <string.h>
#include <sys/stat.h>
#include <sys/syscall.h>
#include <unistd.h>

enum { EMPTY_LOG_SIZE = 41 };

static const char log_suffix[] = "-wal", data_suffix[] = "-data";

static int data_file = -1;

/* The log and the data file have the store's path, and a suffix after it. */
static bool has_suffix(const char *path, const char *suffix) {
  const char *store = getenv(STORE_VARIABLE);
  size_t length = store ? strlen(store) : 0;
  return store && strncmp(path, store, length) == 0 && strcmp(path + length, suffix) == 0;
}

static bool may_commit(int file, size_t size, off_t at) {
  return !has_log() || (is_log(file) && at + (off_t)size > EMPTY_LOG_SIZE);
}

/* Whether bytes go after all that the data file has. */
static bool is_after_end(int file, off_t at) {
  struct stat found;
  return file >= 0 && file == data_file && fstat(file, &found) == 0 && at >= found.st_size;
}

static void pay_before_write(int file, off_t at) {
  bool may_wait = is_log(file) ? at >= HEADER_SIZE : is_after_end(file, at);
  if (!may_wait) pay();
}

/* Flushes a file that isn't the log. */
static int flush(long call, int file) {
  report()->counts.flushes++;
  return ignores_flushes() ? 0 : (int)syscall(call, file);
}

/* A write to the log of an ordered mount. After one that failed nothing is known of the log. */
static ssize_t write_ordered(int log, const void *from, size_t size, off_t at) {
  if (changes_nothing(from, size, at)) return (ssize_t)size;
  if (!note_write(log, from, size, at)) return -1;
  ssize_t written = syscall(SYS_pwrite64, log, from, size, at);
  if (written != (ssize_t)size) begin_zeros();
  return written;
}

#pragma GCC visibility push(default)

int open(const char *path, int flags, ...) {
  va_list others;
  va_start(others, flags);
  mode_t mode = flags & (O_CREAT | O_TMPFILE) ? va_arg(others, mode_t) : 0;
  va_end(others);
  int file = (int)syscall(SYS_openat, AT_FDCWD, path, flags, mode);
  if (file < 0 || flags & O_PATH) return file;
  if (has_suffix(path, log_suffix)) open_log(file);
  if (has_suffix(path, data_suffix)) data_file = file;
  return file;
}

ssize_t pwrite(int file, const void *from, size_t size, off_t at) {
  if (may_commit(file, size, at)) note_commit();
  pay_before_write(file, at);
  if (is_log(file)) note_end(from, size, at);
  if (is_log(file) && is_ordered()) return write_ordered(file, from, size, at);
  return syscall(SYS_pwrite64, file, from, size, at);
}

ssize_t pwrite64(int file, const void *from, size_t size, off_t at) __attribute__((alias("pwrite")));

int ftruncate(int file, off_t size) {
  pay();
  if (is_log(file)) cut_log();
  return (int)syscall(SYS_ftruncate, file, size);
}

int close(int file) {
  if (is_log(file)) close_log();
  if (file == data_file) data_file = -1;
  return (int)syscall(SYS_close, file);
}

int fsync(int file) {
  if (is_log(file)) return sync_log(SYS_fsync);
  return flush(SYS_fsync, file);
}

int fdatasync(int file) {
  if (is_log(file)) return sync_log(SYS_fdatasync);
  return flush(SYS_fdatasync, file);
}

#pragma GCC visibility pop
