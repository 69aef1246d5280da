/* What is done for a client at the server of a mount: it ends in order, and the next one is of the program that is installed now; or it is
 * held while the files of the store are copied. Calls wait meanwhile. */
#define _GNU_SOURCE
#include "supervisor.h"
#include <errno.h>
#include <fcntl.h>
#include <string.h>
#include <sys/wait.h>

enum { ENDING_TIME = 5000 };                       /* milliseconds, after which a server that was asked to end is killed */
enum { COPIED = 0, REFERRED = 255 };               /* statuses of the process that copies; others are errors */

static struct text answer;

bool is_working(const struct supervisor *s) {
  return s->work.step != NO_STEP;
}

bool is_at_rest(const struct supervisor *s) {
  return s->work.step == STOPS || s->work.step == COPIES;
}

/* The last lines of an answer: for how long calls waited. */
static void put_end(const struct supervisor *s) {
  long long held = now() - s->work.since;
  put(&answer, "held %lld.%03lld\nok\n", held / 1000, held % 1000);
}

/* Ends the work. What it answers was written to `answer`. */
static void end_work(struct supervisor *s) {
  struct client *client = s->work.client;
  s->work.step = NO_STEP;
  s->work.client = NULL;
  if (client) answer_client(s, client, &answer);
}

static void fail_work(struct supervisor *s, const char *reason) {
  answer.length = 0;
  put_value(&answer, "error", reason);
  end_work(s);
}

/* ---- another server */

/* The library in the server gives it no more input then, so that it closes the store. It may be about to read when the signal comes, so
 * that this is repeated. */
static void ask_to_end(struct supervisor *s) {
  s->report->ends = 1;
  kill(s->server, now() - s->work.since < ENDING_TIME ? SIGUSR1 : SIGKILL);
}

/* A new program may migrate the store, and need a data file for it. */
static void begin_restart(struct supervisor *s, struct client *client) {
  int before = fcntl(s->engine_file, F_DUPFD_CLOEXEC, FIRST_OTHER);
  if (before < 0 || !reopen_engine(s)) {
    refuse_client(s, client, "%s can't be run: %s", s->engine, strerror(errno));
    if (before >= 0) close(before);
    return;
  }
  open_data(s);
  s->work = (struct work){.step = s->server > 0 ? ENDS : STARTS, .client = client, .since = now(), .old_engine = before};
  if (s->server > 0) ask_to_end(s);
  else s->next_start = now();
}

static void restarted(struct supervisor *s) {
  close(s->work.old_engine);
  drop_data(s);
  say("server %d runs, of the program that is installed now", s->server);
  answer.length = 0;
  put(&answer, "server %d\n", s->server);
  put_end(s);
  end_work(s);
}

/* The new program can't serve the store: the one before does. */
static void go_back(struct supervisor *s, int status) {
  char reason[LINE_SIZE + PATH_MAX];
  drop_data(s);
  close(s->engine_file);
  s->engine_file = s->work.old_engine;
  snprintf(reason, sizeof reason, "%s can't serve the store: it ended, %s; the program before it goes on", s->engine, ending(s, status));
  say("%s", reason);
  fail_work(s, reason);
}

bool ended_for_work(struct supervisor *s, int status) {
  bool is_refusal = s->work.step == STARTS && asked_at(s) == 0 && !was_killed(status) && !was_locked_out(s, status) && !lacks_room(s);
  bool is_over = s->work.step == ENDS;
  if (is_refusal) go_back(s, status);
  if (is_over) {
    say("server %d ended for another one, %s", s->server, ending(s, status));
    s->work.step = STARTS;
  }
  if (is_over || is_refusal) s->server = 0, s->next_start = now();
  return is_over || is_refusal;
}

/* ---- a copy */

/* No server runs meanwhile, so that the files are of one moment. With one that runs no order would do: if the tables are copied first, space
 * that they list may be freed and written again before the contents are copied; if last, they list contents that were written later. */
static int copy_files(const struct supervisor *s) {
  const int from[MOST_FILES] = {s->store_file, s->log_file, s->data_file};
  bool is_reference, are_references = true;
  for (int i = 0; i < MOST_FILES; i++) {
    if (from[i] < 0) continue;
    if (!copy_file(from[i], s->work.files[i], &is_reference)) return errno;
    are_references = are_references && is_reference;
  }
  return are_references ? REFERRED : COPIED;
}

static void go_on(struct supervisor *s) {
  if (s->server > 0) kill(s->server, SIGCONT);
  else s->next_start = now();
  s->sight.since = now();
}

static void begin_copying(struct supervisor *s) {
  s->work.step = COPIES;
  s->work.copier = fork_child();
  if (s->work.copier == 0) _exit(copy_files(s));
  if (s->work.copier > 0) return;
  s->work.copier = 0;
  go_on(s);
  fail_work(s, "no process can be made to copy the store");
}

/* Looks at a file without asking the server of the file system on which it lies: that may be the server of this mount. */
static bool look_at(int file, struct statx *found) {
  return statx(file, "", AT_EMPTY_PATH | AT_STATX_DONT_SYNC, STATX_TYPE | STATX_SIZE, found) == 0;
}

/* A client of an older version brings none for contents. */
static bool has_empty_files(const struct supervisor *s, const struct client *client) {
  struct statx found;
  bool has_files = client->count >= (s->data_file >= 0 ? MOST_FILES : COPIED_DATA);
  for (int i = 0; has_files && i < client->count; i++)
    has_files = look_at(client->files[i], &found) && S_ISREG(found.stx_mode) && found.stx_size == 0;
  return has_files;
}

/* Whether one of the files lies on this mount, where nothing can be written while the server is held. */
static bool are_on_mount(const struct supervisor *s, const struct client *client) {
  struct statx found;
  for (int i = 0; i < client->count; i++)
    if (look_at(client->files[i], &found) && found.stx_dev_major == 0 && found.stx_dev_minor == s->history.connection) return true;
  return false;
}

static void begin_backup(struct supervisor *s, struct client *client) {
  const char *why = !has_empty_files(s, client) ? "a backup takes an empty file for each of the store"
                  : are_on_mount(s, client) ? "the copy would lie on the mount itself, whose calls wait meanwhile"
                  : s->work.copier > 0 ? "the copy before it hasn't ended"
                  : s->trouble == LOG_REMOVED || s->trouble == OTHER_LOG ? "the log of the store isn't in its place" : NULL;
  if (why) {
    refuse_client(s, client, "%s", why);
    return;
  }
  s->work = (struct work){.step = STOPS, .client = client, .since = now()};
  memcpy(s->work.files, client->files, sizeof s->work.files);
  if (s->server <= 0) begin_copying(s);
  else if (kill(s->server, SIGSTOP) != 0) fail_work(s, "the server can't be stopped");
}

/* Whether the server has changed its state in this way since the last look. */
static bool server_has(const struct supervisor *s, int change) {
  siginfo_t event = {0};
  return s->server > 0 && waitid(P_PID, (id_t)s->server, &event, change | WNOHANG) == 0 && event.si_pid == s->server;
}

void look_at_stop(struct supervisor *s) {
  if (s->work.step == STOPS && (s->server <= 0 || server_has(s, WSTOPPED))) {
    server_has(s, WCONTINUED);
    begin_copying(s);
  } else if (s->work.step == COPIES && server_has(s, WCONTINUED)) {
    s->work.is_torn = true;
    kill(s->work.copier, SIGKILL);
  }
}

bool has_copied(struct supervisor *s, pid_t child, int status) {
  if (child != s->work.copier) return false;
  s->work.copier = 0;
  if (s->work.step != COPIES) return true;
  bool is_torn = s->work.is_torn || server_has(s, WCONTINUED);
  go_on(s);
  int end = WIFEXITED(status) ? WEXITSTATUS(status) : EINTR;
  if (is_torn) return fail_work(s, "the server was continued during the copy"), true;
  if (end != COPIED && end != REFERRED) return fail_work(s, strerror(end)), true;
  answer.length = 0;
  put(&answer, "way %s\n", end == REFERRED ? "reference" : "bytes");
  put_end(s);
  end_work(s);
  return true;
}

/* ---- both */

bool begin_work(struct supervisor *s, struct client *client) {
  bool restarts = strcmp(client->request, "restart") == 0, backs_up = strcmp(client->request, "backup") == 0;
  if (!restarts && !backs_up) return false;
  if (is_working(s)) refuse_client(s, client, "another restart or backup is under way");
  else if (has_ended(s)) refuse_client(s, client, "%s", ENDING_MOUNT);
  else if (restarts) begin_restart(s, client);
  else begin_backup(s, client);
  return true;
}

void go_on_working(struct supervisor *s) {
  look_at_stop(s);
  if (s->work.step == ENDS && s->server > 0) ask_to_end(s);
  if (s->work.step == STARTS && s->server > 0 && asked_at(s) != 0) restarted(s);
  if (is_working(s) && s->server == 0 && has_ended(s)) fail_work(s, "the mount has ended");
}

void client_left(struct supervisor *s, struct client *client) {
  if (s->work.client != client) return;
  s->work.client = NULL;
  if (!is_at_rest(s)) return;
  if (s->work.copier > 0) kill(s->work.copier, SIGKILL);
  s->work.step = NO_STEP;
  go_on(s);
}
