/* Preloaded into a server before the library of fusekeep-mount: it answers FSYNC and FSYNCDIR by ENOSYS, as an engine does that doesn't
 * serve them. The library reads messages by syscall(2), which is caught here. */
#define _GNU_SOURCE
#include <dlfcn.h>
#include <errno.h>
#include <linux/fuse.h>
#include <stdarg.h>
#include <stdbool.h>
#include <stdint.h>
#include <string.h>
#include <sys/syscall.h>
#include <unistd.h>

enum { ARGUMENTS = 6, MOST_SYNCS = 64 };

static uint64_t syncs[MOST_SYNCS]; /* the ids of the last ones */
static size_t next_sync;

static void note_message(const void *message, long size) {
  struct fuse_in_header head;
  if (size < (long)sizeof head) return;
  memcpy(&head, message, sizeof head);
  if (head.opcode == FUSE_FSYNC || head.opcode == FUSE_FSYNCDIR) syncs[next_sync++ % MOST_SYNCS] = head.unique;
}

long syscall(long number, ...) {
  long (*next)(long, ...) = (long (*)(long, ...))dlsym(RTLD_NEXT, "syscall");
  long words[ARGUMENTS];
  va_list others;
  va_start(others, number);
  for (int i = 0; i < ARGUMENTS; i++) words[i] = va_arg(others, long);
  va_end(others);
  long done = next(number, words[0], words[1], words[2], words[3], words[4], words[5]);
  int error = errno;
  if (number == SYS_read && words[0] == STDIN_FILENO) note_message((const void *)words[1], done);
  errno = error;
  return done;
}

static bool is_sync(uint64_t id) {
  for (size_t i = 0; id != 0 && i < MOST_SYNCS; i++)
    if (syncs[i] == id) return true;
  return false;
}

ssize_t write(int file, const void *from, size_t size) {
  ssize_t (*next)(int, const void *, size_t) = (ssize_t(*)(int, const void *, size_t))dlsym(RTLD_NEXT, "write");
  struct fuse_out_header head;
  if (file != STDOUT_FILENO || size != sizeof head) return next(file, from, size);
  memcpy(&head, from, sizeof head);
  if (is_sync(head.unique)) head.error = -ENOSYS;
  return next(file, &head, sizeof head);
}

ssize_t __write(int file, const void *from, size_t size) __attribute__((alias("write")));
