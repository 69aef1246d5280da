/* The lives of servers: which of them fail, and how long it takes until the next server starts. Ten that failed in a row end a mount,
 * and any number of others doesn't. */
#define _GNU_SOURCE
#include "supervisor.h"
#include <string.h>
#include <sys/wait.h>

enum { FIRST_PAUSE = 50, LONGEST_PAUSE = 5000, MOST_DOUBLED = 7 }; /* milliseconds; times that a pause doubles */

static const char locked_out[] = " is in use by another server";

long long asked_at(const struct supervisor *s) {
  uint64_t noticed = s->report->notice, moment = (uint64_t)now();
  return (long long)(noticed < moment ? noticed : moment);
}

bool was_killed(int status) {
  static const int own[] = {SIGSEGV, SIGBUS, SIGILL, SIGFPE, SIGABRT, SIGTRAP, SIGSYS};
  for (size_t i = 0; i < sizeof own / sizeof *own; i++)
    if (WIFSIGNALED(status) && WTERMSIG(status) == own[i]) return false;
  return WIFSIGNALED(status);
}

bool was_locked_out(const struct supervisor *s, int status) {
  const char *line = last_line(s);
  size_t length = strlen(line), ending_length = sizeof locked_out - 1;
  return !WIFSIGNALED(status) && asked_at(s) == 0 && length > ending_length && strcmp(line + length - ending_length, locked_out) == 0;
}

/* Whether a server has served: it has answered, or it was killed after it had asked for requests and before one came. */
static bool has_served(const struct supervisor *s, int status) {
  const struct counts *counts = &s->report->counts;
  return counts->answers > 0 || (was_killed(status) && asked_at(s) != 0 && counts->requests == 0);
}

/* A server that ended by itself without an answer has failed. Killed ones aren't counted, nor those to which the store was locked. */
static void count_failures(struct supervisor *s, int status) {
  if (s->report->counts.answers > 0) s->failed_lives = 0;
  else if (!was_killed(status) && !was_locked_out(s, status)) s->failed_lives++;
}

long long count_life(struct supervisor *s, int status) {
  count_failures(s, status);
  if (has_served(s, status)) {
    s->idle_lives = 0;
    return now() - s->started < SHORT_LIFE ? FIRST_PAUSE : 0;
  }
  long long pause = FIRST_PAUSE << (s->idle_lives < MOST_DOUBLED ? s->idle_lives : MOST_DOUBLED);
  s->idle_lives++;
  return pause < LONGEST_PAUSE ? pause : LONGEST_PAUSE;
}
