/* The store of a mount, and the mount that is begun in it. */
#define _GNU_SOURCE
#include "supervisor.h"
#include <errno.h>
#include <fcntl.h>
#include <poll.h>
#include <stdlib.h>
#include <string.h>
#include <sys/socket.h>
#include <sys/wait.h>

enum { DISMISSAL_TIME = 5000, DISMISSAL_PAUSE = 10 }; /* milliseconds: for the end of a server that isn't needed; between two looks */

/* Whether servers can find the store by its one name while it is mounted. SQLite refuses a database that has two. */
static bool has_one_name(const struct supervisor *s, const char *store) {
  struct stat found;
  size_t length = strlen(s->mountpoint);
  if (fstat(s->store_file, &found) != 0) return refused(store);
  if (found.st_nlink > 1) return say("%s has another name (a hard link): remove that name first", store), false;
  bool is_below = length > 0 && strncmp(s->store, s->mountpoint, length) == 0 && (s->store[length] == '/' || length == 1);
  if (is_below) say("%s lies below %s, which would hide it", store, s->mountpoint);
  return !is_below;
}

bool hold_store(struct supervisor *s, const char *store) {
  s->store_file = s->log_file = s->data_file = s->watch = -1;
  s->troubled = "";
  return open_store(s, store) && suits_owner(s, s->store_file, store) && lock_store(s, store) && has_one_name(s, store) && take_lock(s);
}

static void close_end(int *end) {
  if (*end >= 0) close(*end);
  *end = -1;
}

/* Makes the socket over which the first server gets the device. A copy has no server. */
static bool make_socket(struct supervisor *s) {
  int ends[] = {-1, -1};
  if (s->command == MOUNTS && socketpair(AF_UNIX, SOCK_STREAM | SOCK_CLOEXEC, 0, ends) != 0) return refused("socketpair");
  s->own_end = ends[0];
  s->engine_end = ends[1];
  return true;
}

/* Whether the engine says that it has begun the mount, and waits for the device. */
static bool awaits_device(struct supervisor *s) {
  char byte;
  close_end(&s->engine_end);
  if (s->own_end >= 0 && read(s->own_end, &byte, 1) == 1) return true;
  close_end(&s->own_end);
  return false;
}

/* Runs the engine with no input but the device, for which there is a socket. Returns whether it began a mount, and its status if it has
 * ended. */
static bool begins(struct supervisor *s, int null, int *status) {
  *status = W_EXITCODE(FAILED, 0);
  clear_report(s);
  pid_t engine = start_engine(s, "--fresh", null);
  if (awaits_device(s)) return s->server = engine, true;
  return engine >= 0 && waitpid(engine, status, 0) == engine && *status == 0;
}

/* Whether the engine may begin again after it found no room: a log of which a flush failed is written anew before. */
static bool may_begin_again(struct supervisor *s) {
  return lacks_room(s) && use_reserve(s) && (s->report->lost == 0 || replace_log(s));
}

/* Makes the log where there is none. An engine can't: it may open no other files than those that are there when it starts, and the
 * store's owner may have no right to make one. */
static bool make_log(struct supervisor *s) {
  s->log_file = open_beside(s, LOG_SUFFIX, O_RDWR | O_CREAT, &s->made_log);
  if (s->log_file < 0) return unwritable(beside(s, LOG_SUFFIX));
  return lock_bytes(s->log_file) || refused(beside(s, LOG_SUFFIX));
}

int begin_in_store(struct supervisor *s) {
  int status, null = open("/dev/null", O_RDWR | O_CLOEXEC);
  if (null < 0) return refused("/dev/null"), FAILED;
  choose_profile(s);
  open_data(s);
  if (!suits_data(s) || !make_log(s) || !make_socket(s)) return FAILED;
  bool has_begun = begins(s, null, &status);
  if (!has_begun && may_begin_again(s) && make_socket(s)) has_begun = begins(s, null, &status);
  close(null);
  if (has_begun && !has_library(s)) return FAILED;
  if (has_begun) return drop_data(s), keep_reserve(s), 0;
  const char *line = last_line(s);
  if (WIFEXITED(status) && *line) dprintf(STDERR_FILENO, "%s\n", line);
  else say("the engine ended, %s", ending(s, status));
  explain(s);
  explain_data(s);
  return WIFEXITED(status) ? WEXITSTATUS(status) : FAILED;
}

/* The server may have ended meanwhile, as `supervise` will see. */
void give_device(struct supervisor *s) {
  union { struct cmsghdr head; char bytes[CMSG_SPACE(sizeof(int))]; } control = {0};
  char byte = 0;
  struct iovec piece = {.iov_base = &byte, .iov_len = sizeof byte};
  struct msghdr message = {.msg_iov = &piece, .msg_iovlen = 1, .msg_control = &control, .msg_controllen = sizeof control};
  control.head = (struct cmsghdr){.cmsg_len = CMSG_LEN(sizeof s->device), .cmsg_level = SOL_SOCKET, .cmsg_type = SCM_RIGHTS};
  memcpy(CMSG_DATA(&control.head), &s->device, sizeof s->device);
  if (sendmsg(s->own_end, &message, MSG_NOSIGNAL) < 0 && errno != EPIPE) refused("the device can't be given to the server");
  close_end(&s->own_end);
}

/* It closes the store when its input ends. One that doesn't end in time is killed: signals are blocked here, so nothing else would. */
void dismiss_server(struct supervisor *s) {
  close_end(&s->own_end);
  long long until = now() + DISMISSAL_TIME;
  for (; s->server > 0 && waitpid(s->server, NULL, WNOHANG) == 0; poll(NULL, 0, DISMISSAL_PAUSE))
    if (now() >= until) kill(s->server, SIGKILL);
  s->server = 0;
}

/* If this process doesn't hold the store, its files stay: another mount may use them. Before it has opened a log nothing beside the store is
 * this mount's. */
void leave_no_trace(const struct supervisor *s) {
  bool was_made = s->made_store && s->has_store && is_named(s, s->store_file, "");
  if (was_made) remove_beside(s, "");
  bool was_begun = was_made && s->log_file >= 0;
  if (was_begun) remove_beside(s, RESERVE_SUFFIX);
  if (was_begun || (s->made_log && has_no_bytes(s->log_file))) remove_beside(s, LOG_SUFFIX);
  if (s->made_data && (was_made || has_no_bytes(s->data_file))) remove_beside(s, DATA_SUFFIX);
  if (s->made_lock && s->has_lock && is_named(s, s->lock, LOCK_SUFFIX)) remove_beside(s, LOCK_SUFFIX);
}
