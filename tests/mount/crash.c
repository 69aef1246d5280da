/* Preloaded into an engine before the library of fusekeep-mount: the engine dies at requests with the name in CRASH_NAME, or with the
 * number of an opcode in CRASH_OPCODE. With CRASH_AT=read it dies when it has read one, with CRASH_AT=write when it is about to answer one,
 * of a name an MKDIR, after CRASH_PAUSE milliseconds. With CRASH_AT=none it pauses when it has read one, and goes on. With CRASH_WHILE it
 * dies only while the file of this name is there. While there is one of the name in CRASH_HOLDS it reads no message. */
#define _GNU_SOURCE
#include <dlfcn.h>
#include <linux/fuse.h>
#include <stdbool.h>
#include <stdint.h>
#include <stdlib.h>
#include <string.h>
#include <sys/stat.h>
#include <unistd.h>

enum { DIED = 9 };

static uint64_t awaited;

static int dies_at(const char *call) {
  const char *word = getenv("CRASH_AT");
  return word && strcmp(word, call) == 0;
}

/* Whether there is a file of the name that a variable has. */
static bool is_there(const char *variable) {
  const char *path = getenv(variable);
  struct stat found;
  return path && stat(path, &found) == 0;
}

static void die(void) {
  const char *pause = getenv("CRASH_PAUSE");
  if (getenv("CRASH_WHILE") && !is_there("CRASH_WHILE")) return;
  if (pause) usleep((useconds_t)atoi(pause) * 1000);
  if (!dies_at("none")) _exit(DIED);
}

static int is_deadly(const struct fuse_in_header *head, const char *body) {
  const char *name = getenv("CRASH_NAME"), *opcode = getenv("CRASH_OPCODE");
  if (opcode) return head->opcode == (uint32_t)atoi(opcode);
  return name && memmem(body, head->len - sizeof *head, name, strlen(name) + 1);
}

/* The messages that were read are whole, as short ones are. */
static void look(const char *bytes, size_t size) {
  struct fuse_in_header head;
  for (size_t at = 0; at + sizeof head <= size; at += head.len) {
    memcpy(&head, bytes + at, sizeof head);
    if (head.len < sizeof head || head.len > size - at) return;
    if (!is_deadly(&head, bytes + at + sizeof head)) continue;
    if (dies_at("read") || dies_at("none")) die();
    if (head.opcode == FUSE_MKDIR || getenv("CRASH_OPCODE")) awaited = head.unique;
  }
}

ssize_t read(int file, void *to, size_t size) {
  ssize_t (*next)(int, void *, size_t) = (ssize_t(*)(int, void *, size_t))dlsym(RTLD_NEXT, "read");
  while (file == STDIN_FILENO && is_there("CRASH_HOLDS")) usleep(10000);
  ssize_t done = next(file, to, size);
  if (file == STDIN_FILENO && done > 0) look(to, (size_t)done);
  return done;
}

ssize_t write(int file, const void *from, size_t size) {
  ssize_t (*next)(int, const void *, size_t) = (ssize_t(*)(int, const void *, size_t))dlsym(RTLD_NEXT, "write");
  struct fuse_out_header head = {0};
  if (file == STDOUT_FILENO && size >= sizeof head) memcpy(&head, from, sizeof head);
  if (awaited != 0 && head.unique == awaited && dies_at("write")) die();
  return next(file, from, size);
}

ssize_t __write(int file, const void *from, size_t size) __attribute__((alias("write")));
