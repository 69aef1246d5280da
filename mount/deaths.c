/* The list of the deaths of a store's servers: a file beside the store, with a line for each. */
#define _GNU_SOURCE
#include "supervisor.h"
#include <fcntl.h>
#include <stdarg.h>
#include <string.h>
#include <sys/wait.h>

enum { LIST_FLAGS = O_WRONLY | O_CREAT | O_APPEND };
enum { ROOM_AHEAD = 1 << 16, LARGEST_LIST = 1 << 20, TIME_SIZE = 32, MOMENT_SIZE = 48, ENTRY_SIZE = LINE_SIZE + 128 }; /* bytes */

void note_death(struct supervisor *s, int status) {
  write_death(s, -1);
  s->history.deaths++;
  s->death = (struct death){.is_open = true, .ended = now(), .lived = now() - s->started, .status = status};
  clock_gettime(CLOCK_REALTIME, &s->death.at);
  if (!WIFSIGNALED(status) && *last_line(s)) add_to_death(s, "%s", last_line(s));
  if (s->sight.hangs) add_to_death(s, "by the watchdog");
}

void add_to_death(struct supervisor *s, const char *form, ...) {
  char *line = s->death.line;
  va_list words;
  if (strlen(line) + sizeof "; " >= sizeof s->death.line) return;
  strcat(line, *line ? "; " : " ");
  va_start(words, form);
  vsnprintf(line + strlen(line), sizeof s->death.line - strlen(line), form, words);
  va_end(words);
}

/* Seconds with three places, or a dash for a time below 0. */
static const char *seconds(long long milliseconds, char *text) {
  if (milliseconds < 0) strcpy(text, "-");
  else snprintf(text, TIME_SIZE, "%lld.%03lld", milliseconds / 1000, milliseconds % 1000);
  return text;
}

/* The list, open at its end. One that is too long is put aside. */
static int find_list(const struct supervisor *s) {
  char old[PATH_SIZE];
  struct stat found;
  int list = open_beside(s, DEATHS_SUFFIX, LIST_FLAGS, NULL);
  if (list < 0 || fstat(list, &found) != 0 || found.st_size <= LARGEST_LIST) return list;
  close(list);
  strcpy(old, name_beside(s, DEATHS_SUFFIX ".old"));
  renameat(s->folder, name_beside(s, DEATHS_SUFFIX), s->folder, old);
  return open_beside(s, DEATHS_SUFFIX, LIST_FLAGS, NULL);
}

/* The list has room on the disk for its next lines, so that it has them when the disk is full. */
static int open_list(const struct supervisor *s) {
  int list = find_list(s);
  off_t end = list < 0 ? -1 : lseek(list, 0, SEEK_END);
  if (end >= 0) fallocate(list, FALLOC_FL_KEEP_SIZE, end, ROOM_AHEAD);
  return list;
}

void begin_list(const struct supervisor *s) {
  int list = open_list(s);
  if (list >= 0) close(list);
}

/* A moment of the real clock, in UTC. */
static const char *moment(const struct timespec *at, char *text) {
  char day[TIME_SIZE];
  struct tm parts;
  strftime(day, sizeof day, "%Y-%m-%dT%H:%M:%S", gmtime_r(&at->tv_sec, &parts));
  snprintf(text, MOMENT_SIZE, "%s.%03ldZ", day, at->tv_nsec / 1000000);
  return text;
}

void list_line(const struct supervisor *s, const char *line) {
  struct timespec at;
  char text[MOMENT_SIZE];
  int list = open_list(s);
  if (list < 0) return;
  clock_gettime(CLOCK_REALTIME, &at);
  dprintf(list, "%s %s\n", moment(&at, text), line);
  close(list);
}

/* Where the list can't be written the mount goes on. */
void write_death(struct supervisor *s, long long restart) {
  struct death *death = &s->death;
  char entry[ENTRY_SIZE], ended[MOMENT_SIZE], lived[TIME_SIZE], after[TIME_SIZE];
  if (!death->is_open) return;
  death->is_open = false;
  if (restart >= 0) count_restart(s, restart);
  bool is_signal = WIFSIGNALED(death->status);
  int number = is_signal ? WTERMSIG(death->status) : WEXITSTATUS(death->status);
  snprintf(entry, sizeof entry, "%s %s=%d lived=%s restart=%s%s\n",
                        moment(&death->at, ended), is_signal ? "signal" : "status", number,
                        seconds(death->lived, lived), seconds(restart, after), death->line);
  int list = open_list(s);
  if (list < 0) return;
  ssize_t length = (ssize_t)strlen(entry);
  if (write(list, entry, strlen(entry)) != length) say("%s can't be written", beside(s, DEATHS_SUFFIX));
  close(list);
}
