/* Flushes of the log that servers owe, on a mount whose flushes are ordered. A server makes one within five seconds. If it hangs, or none
 * runs, this process makes it, by its own descriptor of the log; in a child, since a disk may take long. */
#define _GNU_SOURCE
#include "supervisor.h"
#include <errno.h>
#include <string.h>
#include <sys/wait.h>

enum { GRACE = 1000 }; /* milliseconds that a server has more */

int pause_before_flush(const struct supervisor *s) {
  long long owed = (long long)s->report->owed, moment = now();
  if (s->way != ORDERED || s->flusher > 0) return -1;
  if (owed <= 0 || owed > moment || s->report->put_off == s->paid) owed = moment;
  if (owed < s->next_flush - OWED_TIME) owed = s->next_flush - OWED_TIME;
  long long left = owed + OWED_TIME + GRACE - moment;
  return left > 0 ? (int)left : 0;
}

void flush_late(struct supervisor *s) {
  if (pause_before_flush(s) != 0) return;
  s->paid = s->report->put_off;
  s->flusher = fork_child();
  if (s->flusher == 0) _exit(fdatasync(s->log_file) == 0 ? 0 : errno);
  if (s->flusher > 0) return;
  s->flusher = 0;
  s->paid = 0;
  s->next_flush = now() + OWED_TIME;
}

static void note_loss(struct supervisor *s, int error) {
  say("a flush of %s failed: %s", beside(s, LOG_SUFFIX), strerror(error));
  s->report->lost = (uint64_t)error;
}

/* A server that runs would go on over bytes that may be in memory alone. The next one has the log anew. A child that was killed may have
 * had an error, which the kernel doesn't report again for a file that was open before the child. */
bool has_flushed(struct supervisor *s, pid_t child, int status) {
  if (child != s->flusher) return false;
  s->flusher = 0;
  if (status == 0) return true;
  note_loss(s, WIFSIGNALED(status) ? EINTR : WEXITSTATUS(status));
  if (s->server > 0) kill(s->server, SIGKILL);
  return true;
}

static void flush(struct supervisor *s) {
  if (s->report->lost == 0 && fdatasync(s->log_file) != 0) note_loss(s, errno);
  s->report->flushing = 0;
}

void flush_for_killed(struct supervisor *s) {
  if (s->report->flushing && s->way != VOLATILE) flush(s);
}

void flush_last(struct supervisor *s) {
  int status;
  if (s->flusher > 0 && waitpid(s->flusher, &status, 0) == s->flusher) has_flushed(s, s->flusher, status);
  flush_for_killed(s);
  if (s->report->owed != 0) flush(s);
  if (s->report->lost == 0 || s->trouble == REMOVED || replace_log(s)) return;
  say("the last changes of %s may be lost", s->store);
}
