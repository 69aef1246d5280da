/* Preloaded into a server before the library of fusekeep-mount, for bench/writeback: the answer to INIT agrees to FUSE_WRITEBACK_CACHE, so
 * that the kernel keeps what is written, with size and times, until it sends WRITEs. Then it may READ by a handle that was opened for
 * writing alone, which the definitions refuse: with WRITEBACK_WIDEN such an OPEN or CREATE is one for reading and writing. The library
 * reads and writes the device by syscall(2). */
#define _GNU_SOURCE
#include <dlfcn.h>
#include <fcntl.h>
#include <linux/fuse.h>
#include <stdarg.h>
#include <stdint.h>
#include <stdlib.h>
#include <string.h>
#include <sys/syscall.h>
#include <unistd.h>

enum { ARGUMENTS = 6, INIT_ANSWER = sizeof(struct fuse_out_header) + sizeof(struct fuse_init_out) };

static uint64_t init; /* the id of the INIT that was read; 0 for none */

static void note_request(char *message, long size) {
  struct fuse_in_header head;
  uint32_t access;
  if (size < (long)(sizeof head + sizeof access)) return;
  memcpy(&head, message, sizeof head);
  if (head.opcode == FUSE_INIT) init = head.unique;
  if ((head.opcode != FUSE_OPEN && head.opcode != FUSE_CREATE) || !getenv("WRITEBACK_WIDEN")) return;
  memcpy(&access, message + sizeof head, sizeof access);
  if ((access & O_ACCMODE) == O_WRONLY) access = (access & ~(uint32_t)O_ACCMODE) | O_RDWR;
  memcpy(message + sizeof head, &access, sizeof access);
}

/* An answer of INIT with the flag, or what it was. */
static const void *agree(const char *answer, size_t size) {
  static char changed[INIT_ANSWER];
  struct fuse_out_header head;
  struct fuse_init_out body;
  if (size != INIT_ANSWER || init == 0) return answer;
  memcpy(&head, answer, sizeof head);
  memcpy(&body, answer + sizeof head, sizeof body);
  if (head.unique != init) return answer;
  body.flags |= FUSE_WRITEBACK_CACHE;
  memcpy(changed, &head, sizeof head);
  memcpy(changed + sizeof head, &body, sizeof body);
  return changed;
}

long syscall(long number, ...) {
  static long (*next)(long, ...);
  long words[ARGUMENTS];
  va_list others;
  va_start(others, number);
  for (int i = 0; i < ARGUMENTS; i++) words[i] = va_arg(others, long);
  va_end(others);
  if (!next) next = (long (*)(long, ...))dlsym(RTLD_NEXT, "syscall");
  if (number == SYS_write && words[0] == STDOUT_FILENO) words[1] = (long)agree((const char *)words[1], (size_t)words[2]);
  long done = next(number, words[0], words[1], words[2], words[3], words[4], words[5]);
  if (number == SYS_read && words[0] == STDIN_FILENO) note_request((char *)words[1], done);
  return done;
}
