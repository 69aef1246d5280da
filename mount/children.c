/* The processes that fusekeep-mount starts. */
#define _GNU_SOURCE
#include "gather/gather.h"
#include "supervisor.h"
#include <errno.h>
#include <fcntl.h>
#include <stdio.h>
#include <stdlib.h>
#include <string.h>
#include <sys/prctl.h>
#include <sys/wait.h>

enum { MOST_WORDS = 16 }; /* of an engine */

pid_t fork_child(void) {
  pid_t parent = getpid(), child = fork();
  if (child < 0) refused("fork");
  if (child != 0) return child;
  if (prctl(PR_SET_PDEATHSIG, SIGKILL) != 0 || getppid() != parent) _exit(CANNOT_RUN);
  setpgid(0, 0);
  return 0;
}

void give_back_signals(const struct supervisor *s) {
  signal(SIGPIPE, SIG_DFL);
  sigprocmask(SIG_SETMASK, &s->mask, NULL);
}

/* The words of `fusekeep serve`, which end by NULL. The mode stands after those of a new store. */
static void put_words(const struct supervisor *s, const char *mode, const char **words) {
  static const char *const first[] = {"fusekeep", "serve", "--db"};
  memcpy(words, first, sizeof first);
  size_t count = sizeof first / sizeof *first;
  words[count++] = s->store;
  if (strcmp(mode, "--fresh") == 0) count += words_of_store(s, words + count);
  words[count++] = mode;
  if (s->wary) words[count++] = "--wary";
  words[count] = NULL;
}

__attribute__((noreturn)) static void end_child(const char *what) {
  dprintf(STDERR_FILENO, "%s: %s\n", what, strerror(errno));
  _exit(CANNOT_RUN);
}

/* What a server has beside an engine that begins a mount in a copy. The last server may have been killed while no read of the device
 * waited. The first one flushes until it has begun the mount, and gets the device then. */
static void become_server(const struct supervisor *s, bool is_first) {
  int flags = fcntl(STDIN_FILENO, F_GETFL);
  if (flags < 0 || fcntl(STDIN_FILENO, F_SETFL, flags & ~O_NONBLOCK) != 0) _exit(CANNOT_RUN);
  if (is_first) pass_descriptor(DEVICE_VARIABLE, s->engine_end);
  if (s->way == ORDERED) setenv(ORDERED_VARIABLE, "1", 1);
  if (s->way != VOLATILE) return;
  if (is_first) setenv(VOLATILE_VARIABLE, "1", 1);
  else if (!ignore_flushes()) end_child("seccomp");
}

/* An engine has the standard descriptors, those that its library uses, an environment for the library alone, and no privileges. */
static void become_engine(const struct supervisor *s, const char *mode, pid_t parent, int lines) {
  close_range(FIRST_OTHER, ~0U, CLOSE_RANGE_CLOEXEC);
  give_back_signals(s);
  clearenv();
  preload_library(s, lines);
  bool is_first = strcmp(mode, "--fresh") == 0;
  if (!is_first || s->engine_end >= 0) become_server(s, is_first);
  if (!drop_privileges(s)) end_child("privileges");
  if (getppid() != parent) _exit(CANNOT_RUN);
}

pid_t start_engine(const struct supervisor *s, const char *mode, int device) {
  const char *words[MOST_WORDS];
  if (ftruncate(s->lock, 0) != 0) refused("lock");
  fallocate(s->lock, FALLOC_FL_KEEP_SIZE, 0, LINE_SIZE);
  pid_t parent = getpid(), child = fork_child();
  if (child != 0) return child;
  int lines = s->shows ? fcntl(STDERR_FILENO, F_DUPFD, FIRST_OTHER) : -1;
  if (dup2(s->lock, STDERR_FILENO) < 0) _exit(CANNOT_RUN);
  if (dup2(device, STDIN_FILENO) < 0 || dup2(device, STDOUT_FILENO) < 0) _exit(CANNOT_RUN);
  become_engine(s, mode, parent, lines);
  put_words(s, mode, words);
  execveat(s->engine_file, "", (char **)words, environ, AT_EMPTY_PATH);
  end_child(s->engine);
}

/* The last line as the engine wrote it. */
static const char *raw_line(const struct supervisor *s) {
  static char text[LINE_SIZE + PATH_SIZE], joined[sizeof text + sizeof "; "];
  off_t room = sizeof text - 1, end = lseek(s->lock, 0, SEEK_END);
  ssize_t length = pread(s->lock, text, (size_t)room, end < room ? 0 : end - room);
  while (length > 0 && text[length - 1] == '\n') length--;
  text[length > 0 ? length : 0] = '\0';
  char *cause = strrchr(text, '\n');
  if (!cause) return text;
  *cause++ = '\0';
  if (strncmp(cause, s->store, strlen(s->store)) != 0) return cause;
  char *before = strrchr(text, '\n');
  snprintf(joined, sizeof joined, "%s; %s", before ? before + 1 : text, cause);
  return joined;
}

const char *last_line(const struct supervisor *s) {
  static char text[ESCAPED_BYTE * (LINE_SIZE + PATH_SIZE)];
  const char *line = raw_line(s);
  escape(text, sizeof text, line, strlen(line), "");
  return text;
}

const char *ending(const struct supervisor *s, int status) {
  static char text[ESCAPED_BYTE * (LINE_SIZE + PATH_SIZE) + 64];
  const char *line = last_line(s);
  int number = WIFSIGNALED(status) ? WTERMSIG(status) : WEXITSTATUS(status);
  const char *kind = WIFSIGNALED(status) ? "killed by signal" : "status";
  snprintf(text, sizeof text, "%s %d%s%s", kind, number, *line ? ": " : "", line);
  return text;
}
