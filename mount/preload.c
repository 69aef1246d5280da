/* The library that engines preload, mount/gather: it reports what a server does, gives it up to 16 messages that wait at once, and
 * writes a line for each. */
#define _GNU_SOURCE
#include "gather/gather.h"
#include "supervisor.h"
#include <errno.h>
#include <fcntl.h>
#include <stdlib.h>
#include <string.h>

/* What a build with the checks of a sanitizer preloads before the library. An engine that is confined can't stop itself to look for leaks. */
#ifndef RUNTIME
#define RUNTIME ""
#endif

enum { VALUE_SIZE = 32 + sizeof RUNTIME };

static const char library[] = "fusekeep-gather.so";

bool find_library(struct supervisor *s) {
  static const char *const near[] = {"fusekeep-gather.so", "../lib/fusekeep/fusekeep-gather.so"};
  s->library = -1;
  for (size_t i = 0; s->library < 0 && i < sizeof near / sizeof *near; i++) {
    const char *path = near_program(near[i]);
    if (path) s->library = open(path, O_RDONLY | O_CLOEXEC);
  }
  if (s->library < 0) say("%s is missing: it belongs beside fusekeep-mount or into ../lib/fusekeep", library);
  return s->library >= 0;
}

bool has_library(const struct supervisor *s) {
  if (s->report->is_loaded) return true;
  say("%s doesn't load %s: it is linked statically, or has a set-user-ID bit or file capabilities", s->engine, library);
  return false;
}

void pass_descriptor(const char *variable, int file) {
  char number[VALUE_SIZE];
  snprintf(number, sizeof number, "%d", file);
  fcntl(file, F_SETFD, 0);
  setenv(variable, number, 1);
}

/* Its path is that of the descriptor: LD_PRELOAD takes no path with a blank or a colon, and the file may be replaced while the store
 * is mounted. */
void preload_library(const struct supervisor *s, int lines) {
  char value[VALUE_SIZE];
  snprintf(value, sizeof value, RUNTIME "/proc/self/fd/%d", s->library);
  fcntl(s->library, F_SETFD, 0);
  setenv("LD_PRELOAD", value, 1);
  if (*RUNTIME) setenv("ASAN_OPTIONS", "detect_leaks=0", 1);
  pass_locks(s);
  setenv(STORE_VARIABLE, s->store, 1);
  pass_descriptor(REPORT_VARIABLE, s->report_file);
  if (s->groups != NO_GROUPS) setenv(GROUPS_VARIABLE, "1", 1);
  if (lines >= 0) pass_descriptor(LINES_VARIABLE, lines);
}
