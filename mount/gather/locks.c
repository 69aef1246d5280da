/* The locks of a server. fusekeep-mount has the server's files locked, by open files that the server has too. The server opens its files
 * again, and a lock call on them would be refused by these locks. So it is made on the open file that has the lock. */
#define _GNU_SOURCE
#include "gather.h"
#include <fcntl.h>
#include <stdarg.h>
#include <stdio.h>
#include <stdlib.h>
#include <sys/stat.h>
#include <sys/syscall.h>
#include <unistd.h>

enum { LEAST_FILES = 2, MOST_FILES };

/* The open files of fusekeep-mount: their number. The first call reads them. */
static int held_files(int *files) {
  static int count = -1, held[MOST_FILES];
  const char *words = count < 0 ? getenv(LOCKED_VARIABLE) : NULL;
  if (count < 0) count = words ? sscanf(words, "%d,%d,%d", &held[0], &held[1], &held[2]) : 0;
  if (count < LEAST_FILES) count = 0;
  for (int i = 0; i < count; i++) files[i] = held[i];
  return count;
}

bool has_held_data(void) {
  int held[MOST_FILES];
  return held_files(held) == MOST_FILES;
}

/* The open file of fusekeep-mount that is of the same file as this one. Another file than these can't be locked, and so isn't served:
 * it has got the name of one. */
static int holder_of(int file) {
  struct stat own, other;
  int held[MOST_FILES], count = held_files(held);
  for (int i = 0; i < count && fstat(file, &own) == 0; i++)
    if (fstat(held[i], &other) == 0 && other.st_dev == own.st_dev && other.st_ino == own.st_ino) return held[i];
  return count > 0 ? -1 : file;
}

#pragma GCC visibility push(default)

int fcntl(int file, int command, ...) {
  va_list words;
  va_start(words, command);
  void *word = va_arg(words, void *);
  va_end(words);
  const struct flock *bytes = word;
  if (command == F_OFD_SETLK && bytes->l_type != F_UNLCK) file = holder_of(file);
  return (int)syscall(SYS_fcntl, file, command, word);
}

int fcntl64(int file, int command, ...) __attribute__((alias("fcntl")));

#pragma GCC visibility pop
