/* A request at which servers end. It would take down the mount, so that it is answered EIO. A request that a commit may have is never
 * answered so: its record answers it. */
#define _GNU_SOURCE
#include "supervisor.h"
#include <linux/fuse.h>

enum { MOST_DEATHS = 3 };

/* The servers from now on get one request at a time, until one has gone beyond those that this one had. */
static void ask_for_single(struct report *report) {
  if (!report->is_single || report->highest > report->beyond) report->beyond = report->highest;
  report->is_single = 1;
}

static void refuse_request(struct supervisor *s) {
  const char *request = name_of_work(s);
  s->report->refused = s->culprit.id;
  s->failed_lives = 0;
  say("%d servers in a row ended at %s: it is answered EIO", MOST_DEATHS, request);
  add_to_death(s, "%s is answered EIO", request);
}

static void count_death(struct supervisor *s) {
  unsigned long long id = s->report->id;
  if (s->culprit.id != id) s->culprit = (struct culprit){.id = id};
  s->culprit.deaths++;
  bool may_refuse = s->report->opcode != FUSE_INIT && id > s->committed;
  if (may_refuse && s->culprit.deaths == MOST_DEATHS) refuse_request(s);
}

void note_commits(struct supervisor *s) {
  const struct report *report = s->report;
  if (report->held > 0 && report->committed > s->committed) s->committed = report->committed;
  if (report->not_taken > s->committed) s->committed = report->not_taken;
}

void blame_request(struct supervisor *s) {
  struct report *report = s->report;
  if (report->held == 0) return;
  ask_for_single(report);
  if (report->given == 1) count_death(s);
}
