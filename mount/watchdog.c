/* Servers that hang. A server hangs if it takes no request and answers none while there is work, or if it takes long to open the store,
 * for which it has ten times as long. A slow disk must not end servers for ever: after each one that was ended so the next has twice as
 * long, until one has answered. */
#define _GNU_SOURCE
#include "supervisor.h"
#include <poll.h>
#include <stdlib.h>
#include <string.h>

enum { OPENING_TIMES = 10, MOST_DOUBLED = 20, LONGEST = 1 << 20, LOOKS = 4, LONGEST_LOOK = 1000 }; /* seconds; milliseconds */

bool take_watchdog(struct supervisor *s, const char *word) {
  char *end;
  long seconds = strtol(word, &end, 10);
  bool is_number = *word >= '0' && *word <= '9' && *end == '\0' && seconds > 0 && seconds <= LONGEST;
  if (!is_number) say("watchdog=%s: no number of seconds", word);
  else s->watchdog = seconds * 1000;
  return is_number;
}

int pause_of_watchdog(const struct supervisor *s) {
  if (s->watchdog == 0 || s->server <= 0) return -1;
  return s->watchdog / LOOKS < LONGEST_LOOK ? (int)(s->watchdog / LOOKS) : LONGEST_LOOK;
}

static bool has_work(const struct supervisor *s) {
  struct pollfd device = {.fd = s->device, .events = POLLIN};
  return s->report->held > 0 || (poll(&device, 1, 0) == 1 && device.revents & POLLIN);
}

/* Whether the server did something since it was last seen, or has nothing to do. */
static bool goes_on(const struct supervisor *s) {
  const struct counts *counts = &s->report->counts;
  return s->sight.requests != counts->requests || s->sight.answers != counts->answers || !has_work(s);
}

/* Ends a server that has done nothing since a moment, if that is longer ago than the limit. */
static void watch(struct supervisor *s, const char *what, long long since, long long limit) {
  limit <<= s->hangs < MOST_DOUBLED ? s->hangs : MOST_DOUBLED;
  if (now() - since < limit) return;
  say("server %d %s for more than %lld s: it is killed", s->server, what, limit / 1000);
  kill(s->server, SIGKILL);
  s->hangs++;
  s->sight.since = now();
  s->sight.hangs = true;
}

static void watch_work(struct supervisor *s) {
  const struct counts *counts = &s->report->counts;
  if (counts->answers > 0) s->hangs = 0;
  if (goes_on(s)) s->sight = (struct sight){.requests = counts->requests, .answers = counts->answers, .since = now()};
  else watch(s, "has answered nothing", s->sight.since > asked_at(s) ? s->sight.since : asked_at(s), s->watchdog);
}

void watch_server(struct supervisor *s) {
  if (s->watchdog == 0 || s->server <= 0 || is_at_rest(s)) return;
  if (asked_at(s) == 0) watch(s, "has opened the store", s->sight.since, OPENING_TIMES * s->watchdog);
  else watch_work(s);
}
