/* Where the engine of a mount, the program `fusekeep`, is found. */
#define _GNU_SOURCE
#include "supervisor.h"
#include <errno.h>
#include <fcntl.h>
#include <stdio.h>
#include <stdlib.h>
#include <string.h>
#include <sys/stat.h>
#include <unistd.h>

/* Opens a program, or returns -1. A script isn't one, since its interpreter would be confined as the engine is. */
static int open_program(const char *path) {
  struct stat found;
  char first[2];
  int file = open(path, O_RDONLY | O_NONBLOCK | O_CLOEXEC), error = 0;
  if (file < 0) return -1;
  if (fstat(file, &found) != 0 || !S_ISREG(found.st_mode) || faccessat(file, "", X_OK, AT_EMPTY_PATH) != 0) error = EACCES;
  else if (pread(file, first, sizeof first, 0) != sizeof first || memcmp(first, "#!", sizeof first) == 0) error = ENOEXEC;
  if (error == 0) return file;
  close(file);
  errno = error;
  return -1;
}

static bool is_program(struct supervisor *s, const char *path) {
  int file = open_program(path);
  if (file < 0) return false;
  s->engine = path;
  s->engine_file = file;
  return true;
}

/* Searches PATH for a program. A relative folder of PATH is made absolute, since this process leaves the folder in which it was
 * started, and may open the engine again. */
static bool find_on_path(struct supervisor *s, const char *name) {
  static char path[3 * PATH_MAX];
  char here[PATH_MAX];
  const char *folder = getenv("PATH");
  if (!folder) folder = "/bin:/usr/bin";
  if (!getcwd(here, sizeof here)) return refused(".");
  for (;;) {
    int length = (int)strcspn(folder, ":");
    snprintf(path, sizeof path, "%s/%.*s/%s", *folder == '/' ? "" : here, length, folder, name);
    if (is_program(s, path)) return true;
    if (!folder[length]) return false;
    folder += length + 1;
  }
}

const char *near_program(const char *name) {
  static char path[PATH_MAX + 64];
  ssize_t length = readlink("/proc/self/exe", path, PATH_MAX);
  while (length > 0 && path[length - 1] != '/') length--;
  if (length <= 0) return NULL;
  strcpy(path + length, name);
  return path;
}

/* Looks into the folder of this program, and nowhere else near it: who may write above that folder isn't known. */
static bool find_near(struct supervisor *s) {
  static char found[PATH_MAX + 64];
  const char *path = near_program("fusekeep");
  return path && is_program(s, strcpy(found, path));
}

bool find_engine(struct supervisor *s) {
  static char path[PATH_MAX];
  const char *named = getenv("FUSEKEEP");
  bool is_named = named && *named;
  if (!is_named && find_near(s)) return true;
  if (is_named && strchr(named, '/')) return (realpath(named, path) && is_program(s, path)) || refused(named);
  const char *name = is_named ? named : "fusekeep";
  if (find_on_path(s, name)) return true;
  say("the engine, %s, is %son PATH", name, is_named ? "not " : "neither beside this program nor ");
  return false;
}

bool reopen_engine(struct supervisor *s) {
  int file = open_program(s->engine);
  if (file < 0) return refused(s->engine);
  close(s->engine_file);
  s->engine_file = file;
  return true;
}
