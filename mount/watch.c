/* The files of a mounted store: what another process does to their names while servers have them open. */
#define _GNU_SOURCE
#include "supervisor.h"
#include <errno.h>
#include <fcntl.h>
#include <string.h>
#include <sys/inotify.h>

#define NEW_LOG_SUFFIX LOG_SUFFIX ".new"

enum { CHANGES = IN_ATTRIB | IN_MOVE_SELF | IN_DELETE_SELF, PIECE = 1 << 16 };

/* Watches an open file, by the name that a process has for it. */
static void watch(const struct supervisor *s, int file) {
  char name[LINE_SIZE];
  snprintf(name, sizeof name, "/proc/self/fd/%d", file);
  if (s->watch >= 0) inotify_add_watch(s->watch, name, CHANGES);
}

void watch_store(struct supervisor *s) {
  s->watch = inotify_init1(IN_CLOEXEC | IN_NONBLOCK);
  watch(s, s->store_file);
  watch(s, s->log_file);
  watch_data(s);
}

void watch_data(const struct supervisor *s) {
  if (s->data_file >= 0) watch(s, s->data_file);
}

static bool is_same(const struct stat *one, const struct stat *other) {
  return one->st_dev == other->st_dev && one->st_ino == other->st_ino;
}

/* An engine that keeps no log has none here either. */
static enum trouble log_trouble(const struct supervisor *s) {
  struct stat own, named;
  if (s->log_file < 0 || fstat(s->log_file, &own) != 0) return NO_TROUBLE;
  if (lstat(beside(s, LOG_SUFFIX), &named) != 0) return LOG_REMOVED;
  return is_same(&own, &named) ? NO_TROUBLE : OTHER_LOG;
}

/* Of a file that can't be made anew. */
static enum trouble trouble_of(const struct supervisor *s, int file, const char *suffix) {
  struct stat own, named;
  if (file < 0 || fstat(file, &own) != 0) return NO_TROUBLE;
  if (own.st_nlink == 0) return REMOVED;
  if (own.st_nlink > 1) return LINKED;
  return lstat(beside(s, suffix), &named) == 0 && is_same(&own, &named) ? NO_TROUBLE : MOVED;
}

/* Notes how the name of the file ends that has the trouble. */
static enum trouble find_trouble(struct supervisor *s) {
  enum trouble found = trouble_of(s, s->store_file, s->troubled = "");
  if (found == NO_TROUBLE) found = trouble_of(s, s->data_file, s->troubled = DATA_SUFFIX);
  return found == NO_TROUBLE ? log_trouble(s) : found;
}

static int troubled_file(const struct supervisor *s) {
  return *s->troubled ? s->data_file : s->store_file;
}

static void say_moved(const struct supervisor *s) {
  char link[LINE_SIZE], place[PATH_MAX];
  snprintf(link, sizeof link, "/proc/self/fd/%d", troubled_file(s));
  ssize_t length = readlink(link, place, sizeof place - 1);
  place[length > 0 ? length : 0] = '\0';
  say("%s was moved to %s: no server can open it until it is back", beside(s, s->troubled), place);
}

static void say_removed(const struct supervisor *s) {
  const char *path = beside(s, s->troubled);
  int file = troubled_file(s), process = getpid();
  if (*s->troubled) say("%s was removed while it was mounted: until its server ends, /proc/%d/fd/%d has its bytes", path, process, file);
  else say("%s was removed while it was mounted: until its server ends, /proc/%d/fd/%d has its bytes, and /proc/%d/fd/%d has its log",
           path, process, file, process, s->log_file);
}

static void say_trouble(const struct supervisor *s) {
  char log[PATH_SIZE];
  strcpy(log, beside(s, LOG_SUFFIX));
  switch (s->trouble) {
  case NO_TROUBLE: say("the files of %s are in their places again", s->store); break;
  case LINKED: say("%s has another name (a hard link), so no server can open it: remove that name", beside(s, s->troubled)); break;
  case MOVED: say_moved(s); break;
  case REMOVED: say_removed(s); break;
  case LOG_REMOVED:
    say("%s was removed while %s was mounted: its server is ended, and the log is written anew", log, s->store);
    break;
  case OTHER_LOG: say("%s isn't the log that %s was mounted with: no server can open it", log, s->store); break;
  }
}

void look_at_files(struct supervisor *s) {
  char events[PIECE];
  while (s->watch >= 0 && read(s->watch, events, sizeof events) > 0) continue;
  enum trouble before = s->trouble;
  const char *troubled = s->troubled;
  s->trouble = find_trouble(s);
  bool is_same_file = strcmp(s->troubled, troubled) == 0;
  if (s->trouble == before && (is_same_file || before == NO_TROUBLE)) return;
  if (!(before == LOG_REMOVED && s->trouble == NO_TROUBLE)) say_trouble(s);
  if (s->trouble == LOG_REMOVED && s->server > 0) kill(s->server, SIGKILL);
  if (s->trouble == NO_TROUBLE) s->next_start = now();
}

/* Copies the bytes of the removed log into a file. */
static bool copy_log(const struct supervisor *s, int file) {
  static char piece[PIECE];
  off_t at = 0;
  for (ssize_t length; (length = pread(s->log_file, piece, sizeof piece, at)) != 0; at += length)
    if (length < 0 || write(file, piece, (size_t)length) != length) return false;
  return fsync(file) == 0;
}

/* Whether a copy of the log has all commits that were acknowledged. If a flush failed, the kernel may have lost what it couldn't write. */
static bool has_all_commits(struct supervisor *s, int file) {
  s->has_hole = s->report->lost != 0 && end_of_commits(file) < (off_t)s->report->acknowledged;
  return !s->has_hole;
}

/* Writes the log anew, whole or not at all. Its bytes are there as long as it is open here, also if it was removed. */
static bool restore_log(struct supervisor *s) {
  char made[PATH_SIZE];
  remove_beside(s, NEW_LOG_SUFFIX);
  int file = open_beside(s, NEW_LOG_SUFFIX, O_RDWR | O_CREAT, NULL);
  if (file < 0) return unwritable(beside(s, NEW_LOG_SUFFIX));
  strcpy(made, name_beside(s, NEW_LOG_SUFFIX));
  bool is_copied = lock_bytes(file) && copy_log(s, file);
  if (is_copied && !has_all_commits(s, file)) return close(file), remove_beside(s, NEW_LOG_SUFFIX), false;
  is_copied = is_copied && renameat(s->folder, made, s->folder, name_beside(s, LOG_SUFFIX)) == 0;
  if (!is_copied) return close(file), unwritable(beside(s, LOG_SUFFIX));
  fsync(s->folder);
  close(s->log_file);
  s->log_file = file;
  watch(s, file);
  return true;
}

bool replace_log(struct supervisor *s) {
  if (!restore_log(s)) return false;
  say("a flush of %s failed, so it was written anew", beside(s, LOG_SUFFIX));
  s->report->lost = s->report->owed = 0;
  return true;
}

bool can_start(struct supervisor *s) {
  look_at_files(s);
  flush_for_killed(s);
  if (s->trouble == LOG_REMOVED && restore_log(s)) look_at_files(s);
  return s->trouble == NO_TROUBLE && (s->report->lost == 0 || replace_log(s));
}
