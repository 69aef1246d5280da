/* The state of a mount, as its supervisor reports it. */
#define _GNU_SOURCE
#include "supervisor.h"
#include <fcntl.h>
#include <stdarg.h>
#include <stdlib.h>
#include <string.h>
#include <sys/wait.h>

enum { TIME_SIZE = 32, NAME_SIZE = 64, KILOBYTE = 1024 };

void put(struct text *to, const char *form, ...) {
  size_t room = sizeof to->bytes - to->length;
  va_list words;
  va_start(words, form);
  int length = vsnprintf(to->bytes + to->length, room, form, words);
  va_end(words);
  if (length > 0) to->length += (size_t)length < room ? (size_t)length : room - 1;
}

void put_value(struct text *to, const char *name, const char *value) {
  put(to, "%s ", name);
  for (; *value; value++) {
    unsigned char byte = (unsigned char)*value;
    bool is_plain = byte >= ' ' && byte < 0177 && byte != '\\';
    put(to, is_plain ? "%c" : "\\%03o", byte);
  }
  put(to, "\n");
}

/* A moment of the real clock, in UTC. */
static void put_moment(struct text *to, const char *name, const struct timespec *at) {
  char day[TIME_SIZE];
  struct tm parts;
  strftime(day, sizeof day, "%Y-%m-%dT%H:%M:%S", gmtime_r(&at->tv_sec, &parts));
  put(to, "%s %s.%03ldZ\n", name, day, at->tv_nsec / 1000000);
}

static void put_seconds(struct text *to, const char *name, long long milliseconds) {
  put(to, "%s %lld.%03lld\n", name, milliseconds / 1000, milliseconds % 1000);
}

static void put_length(struct text *to, const char *name, int file) {
  struct stat found;
  if (file >= 0 && fstat(file, &found) == 0) put(to, "%s %lld\n", name, (long long)found.st_size);
}

static void put_counts(const struct supervisor *s, struct text *to) {
  struct totals totals = totals_of(s);
  put(to, "requests %llu\ngroups %llu\nflushes %llu\n", totals.requests, totals.groups, totals.flushes);
}

/* How long the server has worked at a request that it hasn't answered. */
static void put_work(const struct supervisor *s, struct text *to) {
  long long since = (long long)s->report->since, moment = now();
  if (s->server > 0 && s->report->held > 0 && since > 0 && since <= moment) put_seconds(to, "unanswered", moment - since);
}

void count_restart(struct supervisor *s, long long restart) {
  struct history *history = &s->history;
  history->times[history->restarts++ % MOST_RESTARTS] = restart;
  if (restart > history->longest) history->longest = restart;
}

static int compare_times(const void *one, const void *other) {
  long long left = *(const long long *)one, right = *(const long long *)other;
  return (left > right) - (left < right);
}

/* The median is that of the last restarts. */
static void put_restarts(const struct supervisor *s, struct text *to) {
  static long long times[MOST_RESTARTS];
  const struct history *history = &s->history;
  size_t count = history->restarts < MOST_RESTARTS ? (size_t)history->restarts : MOST_RESTARTS;
  if (count == 0) return;
  memcpy(times, history->times, sizeof times);
  qsort(times, count, sizeof *times, compare_times);
  put_seconds(to, "restart_median", times[count / 2]);
  put_seconds(to, "restart_longest", history->longest);
}

static void put_death(const struct supervisor *s, struct text *to) {
  const struct death *death = &s->death;
  put(to, "deaths %llu\n", s->history.deaths);
  if (s->history.deaths == 0) return;
  put_moment(to, "last_death", &death->at);
  if (WIFSIGNALED(death->status)) put(to, "last_death_signal %d\n", WTERMSIG(death->status));
  else put(to, "last_death_status %d\n", WEXITSTATUS(death->status));
  put_seconds(to, "last_death_lived", death->lived);
  put_value(to, "last_death_line", death->line + strspn(death->line, " "));
}

/* A number that stands in a small file of the kernel, after a word or at its beginning; -1 where there is none. */
static long long number_in(const char *path, const char *word) {
  char line[LINE_SIZE];
  long long number = -1;
  FILE *file = fopen(path, "re");
  if (!file) return -1;
  while (number < 0 && fgets(line, sizeof line, file))
    if (strncmp(line, word, strlen(word)) == 0) number = strtoll(line + strlen(word), NULL, 10);
  fclose(file);
  return number;
}

static void put_memory(const struct supervisor *s, struct text *to) {
  char path[NAME_SIZE];
  snprintf(path, sizeof path, "/proc/%d/status", s->server);
  long long kilobytes = s->server > 0 ? number_in(path, "VmRSS:") : -1;
  if (kilobytes >= 0) put(to, "memory %lld\n", kilobytes * KILOBYTE);
}

/* The kernel counts the calls that wait where the file system fusectl is mounted. */
static void put_waiting(const struct supervisor *s, struct text *to) {
  char path[NAME_SIZE];
  snprintf(path, sizeof path, "/sys/fs/fuse/connections/%u/waiting", s->history.connection);
  long long waiting = s->history.has_connection ? number_in(path, "") : -1;
  if (waiting >= 0) put(to, "waiting %lld\n", waiting);
}

static const char *state_of(const struct supervisor *s) {
  if (has_ended(s)) return "ending";
  if (s->server == 0 && s->trouble != NO_TROUBLE) return "waiting for a file of the store";
  if (s->work.step == STOPS || s->work.step == COPIES) return "held for a backup";
  if (s->work.step == ENDS || s->work.step == STARTS) return "restarting the server";
  if (s->is_full) return "waiting for room";
  if (s->server == 0 || asked_at(s) == 0) return "starting a server";
  if (!s->ready) return "starting";
  return s->is_unmounted ? "detached" : "serving";
}

static const char *durability_of(const struct supervisor *s) {
  if (s->way == VOLATILE) return "volatile";
  return s->way == ORDERED && !s->report->is_strict ? ORDERED_WORD : "durable";
}

void put_status(const struct supervisor *s, struct text *to) {
  put_value(to, "store", s->store);
  put_value(to, "mountpoint", s->mountpoint);
  put_moment(to, "mounted", &s->history.mounted);
  put_value(to, "state", state_of(s));
  put_value(to, "durability", durability_of(s));
  put(to, "supervisor %d\nserver %d\nservers %llu\n", getpid(), s->server > 0 ? s->server : 0, s->history.servers);
  put_death(s, to);
  put_restarts(s, to);
  put_counts(s, to);
  put_work(s, to);
  put_waiting(s, to);
  put_memory(s, to);
  put_length(to, "store_bytes", s->store_file);
  put_length(to, "log_bytes", s->log_file);
  put_length(to, "data_bytes", s->data_file);
}
