/* Preloaded into a server before the library of fusekeep-mount: writes a line for each message that is read, and for each write, cut, flush
 * and range of zeros of the store's file (S) and its log (L), into the file of the descriptor that PAGES names. bench/pages reads them. The
 * library makes its calls by syscall(2), which is caught here. */
#define _GNU_SOURCE
#include <dlfcn.h>
#include <errno.h>
#include <fcntl.h>
#include <linux/fuse.h>
#include <stdarg.h>
#include <stdbool.h>
#include <stdint.h>
#include <stdio.h>
#include <stdlib.h>
#include <string.h>
#include <sys/syscall.h>
#include <time.h>
#include <unistd.h>

enum { MOST_FILES = 1024, ARGUMENTS = 6, LINE_SIZE = 1 << 16, ROOM = 16 };
enum { HEADER_SIZE = 32, FRAME_SIZE = 24 + 4096 }; /* of a log of pages of 4 KiB */

static char kinds[MOST_FILES]; /* of descriptors: S, L, or 0 for others */

static long call(long number, const long *words) {
  static long (*next)(long, ...);
  if (!next) next = (long (*)(long, ...))dlsym(RTLD_NEXT, "syscall");
  return next(number, words[0], words[1], words[2], words[3], words[4], words[5]);
}

static void put(const char *line, size_t size) {
  const char *number = getenv("PAGES");
  int error = errno;
  long words[ARGUMENTS] = {number ? atoi(number) : -1, (long)line, (long)size};
  if (number && call(SYS_write, words) != (long)size) abort();
  errno = error;
}

__attribute__((format(printf, 1, 2))) static void print(const char *form, ...) {
  char line[128];
  va_list words;
  va_start(words, form);
  int length = vsnprintf(line, sizeof line, form, words);
  va_end(words);
  put(line, (size_t)length);
}

static int64_t nanoseconds(void) {
  struct timespec now;
  clock_gettime(CLOCK_MONOTONIC, &now);
  return now.tv_sec * INT64_C(1000000000) + now.tv_nsec;
}

static void note_open(const char *path, long flags, long file) {
  const char *store = getenv("FUSEKEEP_STORE");
  size_t length = store ? strlen(store) : 0;
  if (file < 0 || file >= MOST_FILES) return;
  kinds[file] = 0;
  if (!store || flags & O_PATH || strncmp(path, store, length) != 0) return;
  kinds[file] = path[length] == '\0' ? 'S' : strcmp(path + length, "-wal") == 0 ? 'L' : 0;
}

static bool are_zeros(const unsigned char *bytes, size_t size) {
  return size == 0 || (bytes[0] == 0 && memcmp(bytes, bytes + 1, size - 1) == 0);
}

/* A write: where, how many bytes, and the numbers of the pages whose frames begin in it. Zeros have the letter Z. */
static void note_write(char kind, const unsigned char *bytes, size_t size, size_t at) {
  char line[LINE_SIZE];
  int length = snprintf(line, sizeof line, "%c %c %zu %zu", are_zeros(bytes, size) ? 'Z' : 'P', kind, at, size);
  size_t first = at <= HEADER_SIZE ? 0 : (at - HEADER_SIZE + FRAME_SIZE - 1) / FRAME_SIZE;
  for (size_t frame = HEADER_SIZE + first * FRAME_SIZE; kind == 'L' && frame + 4 <= at + size; frame += FRAME_SIZE) {
    const unsigned char *page = bytes + (frame - at);
    uint32_t number = (uint32_t)page[0] << 24 | (uint32_t)page[1] << 16 | (uint32_t)page[2] << 8 | page[3];
    if (number != 0 && length + ROOM < LINE_SIZE) length += snprintf(line + length, ROOM, " %u", number);
  }
  line[length++] = '\n';
  put(line, (size_t)length);
}

static void note_message(const void *message, long size) {
  struct fuse_in_header head;
  if (size < (long)sizeof head) return;
  memcpy(&head, message, sizeof head);
  print("R %u\n", head.opcode);
}

static void note_after(long number, const long *words, char kind, long done, int64_t taken) {
  if (number == SYS_openat) note_open((const char *)words[1], words[2], done);
  if (number == SYS_read && words[0] == STDIN_FILENO) note_message((const void *)words[1], done);
  if (!kind || done < 0) return;
  if (number == SYS_fsync || number == SYS_fdatasync) print("F %c %lld\n", kind, (long long)taken);
  if (number == SYS_fallocate) print("M %c %ld %ld\n", kind, words[2], words[3]);
  if (number == SYS_ftruncate) print("T %c %ld\n", kind, words[1]);
  if (number == SYS_pwrite64) note_write(kind, (const unsigned char *)words[1], (size_t)done, (size_t)words[3]);
}

long syscall(long number, ...) {
  long words[ARGUMENTS];
  va_list others;
  va_start(others, number);
  for (int i = 0; i < ARGUMENTS; i++) words[i] = va_arg(others, long);
  va_end(others);
  char kind = words[0] >= 0 && words[0] < MOST_FILES ? kinds[words[0]] : 0;
  if (number == SYS_close && kind) kinds[words[0]] = 0;
  int64_t before = nanoseconds();
  long done = call(number, words);
  int error = errno;
  note_after(number, words, kind, done, nanoseconds() - before);
  errno = error;
  return done;
}
