/* Preloaded into a server before the library of fusekeep-mount: records each call on the store's files, with its bytes, in the
 * file of the descriptor that POWER_TRACE names, and that a FSYNC or FSYNCDIR was answered. The library makes these calls by syscall(2),
 * which is caught here. */
#define _GNU_SOURCE
#include <dlfcn.h>
#include <errno.h>
#include <fcntl.h>
#include <linux/fuse.h>
#include <stdarg.h>
#include <stdbool.h>
#include <stdint.h>
#include <stdlib.h>
#include <string.h>
#include <sys/syscall.h>
#include <sys/uio.h>
#include <time.h>
#include <unistd.h>

enum { MOST_FILES = 1024, ARGUMENTS = 6, MOST_SYNCS = 64, LARGEST_FILE = 1 << 27 };

/* A record, before its bytes. power/trace.py reads it. */
struct record {
  char kind, file;
  uint16_t none;
  uint32_t length;
  uint64_t at, time;
};

static char kinds[MOST_FILES];     /* of descriptors: S the store's file, L its log, C its contents, 0 others */
static uint64_t syncs[MOST_SYNCS]; /* the ids of FSYNCs that came */
static size_t next_sync;
static char based[4];              /* the kinds whose base is recorded */

static long call(long number, const long *words) {
  static long (*next)(long, ...);
  if (!next) next = (long (*)(long, ...))dlsym(RTLD_NEXT, "syscall");
  return next(number, words[0], words[1], words[2], words[3], words[4], words[5]);
}

static uint64_t now(void) {
  struct timespec time;
  clock_gettime(CLOCK_MONOTONIC, &time);
  return (uint64_t)time.tv_sec * 1000000000 + (uint64_t)time.tv_nsec;
}

static void put(char kind, char file, uint64_t at, const void *bytes, size_t size) {
  const char *number = getenv("POWER_TRACE");
  int error = errno;
  if (!number) return;
  struct record record = {kind, file, 0, (uint32_t)size, at, now()};
  struct iovec pieces[] = {{&record, sizeof record}, {(void *)bytes, size}};
  if (writev(atoi(number), pieces, 2) != (ssize_t)(sizeof record + size)) abort();
  errno = error;
}

/* What a file holds once a server has flushed it. */
static void put_base(long file) {
  char *bytes = malloc(LARGEST_FILE);
  ssize_t size = pread((int)file, bytes, LARGEST_FILE, 0);
  if (size < 0 || size == LARGEST_FILE) abort();
  put('B', kinds[file], 0, bytes, (size_t)size);
  free(bytes);
  based[strlen(based)] = kinds[file];
}

static void note_open(const char *path, long flags, long file) {
  const char *store = getenv("FUSEKEEP_STORE");
  size_t length = store ? strlen(store) : 0;
  if (file < 0 || file >= MOST_FILES) return;
  kinds[file] = 0;
  if (!store || flags & O_PATH || strncmp(path, store, length) != 0) return;
  path += length;
  kinds[file] = *path == '\0' ? 'S' : strcmp(path, "-wal") == 0 ? 'L' : strcmp(path, "-data") == 0 ? 'C' : 0;
}

static void note_message(const void *message, long size) {
  struct fuse_in_header head;
  if (size < (long)sizeof head) return;
  memcpy(&head, message, sizeof head);
  if (head.opcode == FUSE_FSYNC || head.opcode == FUSE_FSYNCDIR) syncs[next_sync++ % MOST_SYNCS] = head.unique;
}

static bool is_sync(uint64_t id) {
  for (size_t i = 0; id != 0 && i < MOST_SYNCS; i++)
    if (syncs[i] == id) return true;
  return false;
}

/* A flush is recorded when it has returned, with the time of its begin. */
static void note_flush(long file, bool is_done, uint64_t began) {
  put(is_done ? 'F' : 'f', kinds[file], began, NULL, 0);
  if (is_done && !strchr(based, kinds[file])) put_base(file);
}

static char kind_of(long file) {
  return file >= 0 && file < MOST_FILES ? kinds[file] : 0;
}

static void note_after(long number, const long *words, long done, uint64_t began) {
  char kind = kind_of(words[0]);
  if (number == SYS_openat) note_open((const char *)words[1], words[2], done);
  if (number == SYS_read && words[0] == STDIN_FILENO) note_message((const void *)words[1], done);
  if ((number == SYS_fsync || number == SYS_fdatasync) && kind) note_flush(words[0], done == 0, began);
  if (number == SYS_fallocate && kind && done == 0) put('Z', kind, (uint64_t)words[2], &words[3], sizeof words[3]);
}

/* Writes and cuts are recorded before they are made. */
long syscall(long number, ...) {
  long words[ARGUMENTS];
  va_list others;
  va_start(others, number);
  for (int i = 0; i < ARGUMENTS; i++) words[i] = va_arg(others, long);
  va_end(others);
  char kind = kind_of(words[0]);
  if (number == SYS_pwrite64 && kind) put('P', kind, (uint64_t)words[3], (const void *)words[1], (size_t)words[2]);
  if (number == SYS_ftruncate && kind) put('T', kind, (uint64_t)words[1], NULL, 0);
  if (number == SYS_close && kind) kinds[words[0]] = 0;
  uint64_t began = now();
  long done = call(number, words);
  int error = errno;
  note_after(number, words, done, began);
  errno = error;
  return done;
}

/* The library makes the flush before it writes the answer. */
ssize_t write(int file, const void *from, size_t size) {
  ssize_t (*next)(int, const void *, size_t) = (ssize_t(*)(int, const void *, size_t))dlsym(RTLD_NEXT, "write");
  struct fuse_out_header head;
  ssize_t done = next(file, from, size);
  if (file != STDOUT_FILENO || size != sizeof head) return done;
  memcpy(&head, from, sizeof head);
  if (done >= 0 && head.error == 0 && is_sync(head.unique)) put('Y', 'D', head.unique, NULL, 0);
  return done;
}

ssize_t __write(int file, const void *from, size_t size) __attribute__((alias("write")));
