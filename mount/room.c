/* The room on the store's disk, and the reserve: a file beside the store whose room is given up where the disk is full, so that a
 * store can still be mounted then, and files removed from it. */
#define _GNU_SOURCE
#include "supervisor.h"
#include <errno.h>
#include <fcntl.h>
#include <string.h>
#include <sys/random.h>
#include <sys/statvfs.h>

/* How the engine's line of a full disk ends, after the file. */
#define NO_ROOM ": no room left"

enum { LEAST_ROOM = 1 << 16 };                          /* bytes; most requests fail with less */
enum { LARGEST_RESERVE = 8 << 20, LEAST_RESERVE = 256 << 10, LARGEST_LOG = 9 << 19, PIECE = 1 << 16 }; /* bytes */
enum { SHARE = 8 };                                     /* of a small disk that the reserve and the log have at most, each */
enum { TRY_PAUSE = 5000, STOP_TIME = 3000 };            /* milliseconds */
enum { MOST_TRIES = 16 };                               /* after files were removed */

/* The free room, with what is kept for root where `is_root`. */
static long long free_room_for(const struct supervisor *s, bool is_root) {
  struct statvfs room;
  if (fstatvfs(s->folder, &room) != 0) return 0;
  return (long long)((is_root ? room.f_bfree : room.f_bavail) * room.f_frsize);
}

static long long free_room(const struct supervisor *s) {
  return free_room_for(s, s->owner == 0);
}

/* A share of the disk, but not more than this. */
static long long share_of_disk(const struct supervisor *s, long long most) {
  struct statvfs room;
  if (fstatvfs(s->folder, &room) != 0) return most;
  long long share = (long long)(room.f_blocks * room.f_frsize) / SHARE / PIECE * PIECE;
  return share < most ? share : most;
}

/* Whether an engine's line ends with the cause that a file of the store has no room. A path may have the same words. */
static bool names_room(const struct supervisor *s, const char *line, const char *suffix) {
  char cause[PATH_SIZE + sizeof NO_ROOM], shown[ESCAPED_BYTE * sizeof cause];
  int size = snprintf(cause, sizeof cause, "%s%s" NO_ROOM, s->store, suffix);
  size_t length = strlen(line), end = escape(shown, sizeof shown, cause, (size_t)size, "");
  return length >= end && strcmp(line + length - end, shown) == 0;
}

bool lacks_room(const struct supervisor *s) {
  const char *line = last_line(s);
  return free_room_for(s, false) < LEAST_ROOM || names_room(s, line, "") || names_room(s, line, LOG_SUFFIX) ||
         names_room(s, line, DATA_SUFFIX);
}

void explain(const struct supervisor *s) {
  if (faccessat(s->folder, ".", W_OK, 0) != 0) unwritable(folder_of(s));
  else if (!owner_may_enter(s)) say("%s can't be read by the owner of %s (user %u), as whom its servers run", folder_of(s), s->store, s->owner);
  else if (lacks_room(s)) say("%s has no room left", folder_of(s));
}

/* The bytes of the disk that a file has. */
static long long taken_by(const struct stat *file) {
  return (long long)file->st_blocks * S_BLKSIZE;
}

/* What the log lacks of the room that a server has for it. */
static long long lacking_log_room(const struct supervisor *s) {
  struct stat log = {0};
  fstat(s->log_file, &log);
  long long lacking = share_of_disk(s, LARGEST_LOG) - taken_by(&log);
  return lacking > 0 ? lacking : 0;
}

/* What the store's file has after its end. */
static long long room_of_store(const struct supervisor *s) {
  struct stat store = {0};
  fstat(s->store_file, &store);
  long long room = taken_by(&store) - store.st_size;
  return room > 0 ? room : 0;
}

static long long room_of_reserve(const struct supervisor *s) {
  struct stat reserve = {0};
  fstatat(s->folder, name_beside(s, RESERVE_SUFFIX), &reserve, AT_SYMLINK_NOFOLLOW);
  return taken_by(&reserve);
}

/* The free room, with what the log, the reserve and the end of the store's file have: servers that begin and end only move it. */
static long long room_in_all(const struct supervisor *s) {
  struct stat log = {0};
  fstat(s->log_file, &log);
  return free_room(s) + taken_by(&log) + room_of_store(s) + room_of_reserve(s);
}

/* Random bytes take room on every file system. */
static bool fill_reserve(int file, long long from, long long to) {
  static char piece[PIECE];
  for (long long at = from; at < to; at += PIECE)
    if (getrandom(piece, sizeof piece, 0) != PIECE || pwrite(file, piece, sizeof piece, at) != PIECE) return false;
  return fsync(file) == 0;
}

/* Makes the reserve this long, unless it is longer. Where there is no room for that it stays as it was. */
static bool make_reserve(struct supervisor *s, long long size) {
  struct stat found;
  bool made, is_there = false;
  int file = open_beside(s, RESERVE_SUFFIX, O_WRONLY | O_CREAT, &made);
  if (file < 0) return false;
  if (fstat(file, &found) == 0) is_there = found.st_size >= size || fill_reserve(file, found.st_size / PIECE * PIECE, size);
  if (!is_there && ftruncate(file, found.st_size) != 0) say("%s can't be cut", beside(s, RESERVE_SUFFIX));
  close(file);
  if (!is_there && made) remove_beside(s, RESERVE_SUFFIX);
  s->has_reserve = is_there || !made;
  if (is_there && s->gave_reserve) say("%s is made again", beside(s, RESERVE_SUFFIX));
  if (is_there) s->gave_reserve = false;
  return is_there;
}

static void be_full(struct supervisor *s) {
  s->is_full = true;
  s->report->is_full = 1;
  say("%s has no room left: calls that take room wait until there is some", folder_of(s));
}

/* Without a reserve a full disk takes no writes. A log that they fill couldn't be copied, and then no request is committed. */
void keep_reserve(struct supervisor *s) {
  long long size = share_of_disk(s, LARGEST_RESERVE);
  if (s->has_reserve || s->is_full) return;
  if (free_room(s) >= size + size / 2) make_reserve(s, size);
  else s->has_reserve = faccessat(s->folder, name_beside(s, RESERVE_SUFFIX), F_OK, AT_SYMLINK_NOFOLLOW) == 0;
  if (!s->has_reserve && free_room(s) < LEAST_ROOM) be_full(s);
}

/* Makes a reserve of the room that there is, but for this much. A file system may keep some for itself, which counts as free. */
static bool save_reserve(struct supervisor *s, long long others) {
  long long size = share_of_disk(s, LARGEST_RESERVE);
  long long room = (room_of_reserve(s) + free_room(s) - LEAST_ROOM - others) / PIECE * PIECE;
  if (room < size) size = room;
  while (size >= LEAST_RESERVE && !make_reserve(s, size)) size = size / 2 / PIECE * PIECE;
  return size >= LEAST_RESERVE;
}

/* On a full disk the store has half of the reserve's room, so that what the log has can be copied into it. A large removal then may fill
 * the rest of the disk, and no more. The data file gets none: a removal writes nothing there. An engine that ends cuts it off. */
static void keep_store_room(const struct supervisor *s) {
  struct stat store;
  if (s->store_room == 0 || fstat(s->store_file, &store) != 0) return;
  fallocate(s->store_file, FALLOC_FL_KEEP_SIZE, store.st_size, s->store_room);
}

/* Only while no server runs, which could write there. */
static void take_back_store_room(struct supervisor *s) {
  struct stat store;
  if (fstat(s->store_file, &store) == 0 && ftruncate(s->store_file, store.st_size) == 0) s->store_room = 0;
}

/* Where calls go on after the disk was full, the log has its room before contents can take it, and the reserve gets back the store's. */
void share_room(struct supervisor *s) {
  if (s->is_full) {
    keep_store_room(s);
    return;
  }
  bool is_back = s->store_room > 0;
  if (is_back) take_back_store_room(s);
  fallocate(s->log_file, FALLOC_FL_KEEP_SIZE, 0, share_of_disk(s, LARGEST_LOG));
  if (is_back && s->has_reserve) save_reserve(s, 0);
}

static bool give_up_reserve(struct supervisor *s) {
  long long half = room_of_reserve(s) / 2;
  s->has_reserve = false;
  if (unlinkat(s->folder, name_beside(s, RESERVE_SUFFIX), 0) != 0) return false;
  s->gave_reserve = true;
  s->store_room = half;
  keep_store_room(s);
  say("%s has no room left: %s is given up", folder_of(s), beside(s, RESERVE_SUFFIX));
  return true;
}

/* Servers now get one request at a time, and none that takes room. If one ends all the same, its request needs more room than there is,
 * unless others had filled the log before. Then the next server, which has an empty one, tries it once more. */
static void keep_back_request(struct supervisor *s) {
  struct report *report = s->report;
  bool is_alone = report->counts.answers == 0 || report->id == s->failed_id;
  s->failed_id = report->id;
  if (!is_alone) return;
  long long room = room_in_all(s);
  size_t i = 0;
  while (i < KEPT_BACK && report->kept_back[i] != 0) i++;
  if (report->held == 0 || i == KEPT_BACK) return;
  report->kept_back[i] = report->id;
  if (i == 0 || room < s->kept_room) s->kept_room = room;
  say("%s needs more room than there is: it waits", name_of_work(s));
}

bool use_reserve(struct supervisor *s) {
  bool was_full = s->is_full, gave = give_up_reserve(s);
  if (was_full && !gave) keep_back_request(s);
  if (!was_full) {
    be_full(s);
    s->tries_again = s->tries > 0 && s->report->writes > 0;
  }
  return gave;
}

/* Whether a server has removed files, and does nothing now. It has served for a while then, since the next one must start first. */
static bool has_removed(const struct supervisor *s) {
  long long ready = asked_at(s), start_time = ready - s->started;
  return ready != 0 && s->report->removals > 0 && s->report->held == 0 && now() - ready >= start_time + TRY_PAUSE;
}

/* Whether a server serves, and isn't at work for long: at a large removal it either ends it or shows that there is no room for it. */
static bool may_be_ended(const struct supervisor *s) {
  long long ready = asked_at(s), since = (long long)s->report->since;
  return ready != 0 && now() - ready >= SHORT_LIFE && (s->report->held == 0 || now() - since < SHORT_LIFE);
}

/* Whether the disk has the room that a mount has, and some more. A log that ended gives its room back, and takes it again. */
static bool has_room(const struct supervisor *s) {
  long long size = share_of_disk(s, LARGEST_RESERVE);
  return free_room(s) + room_of_store(s) >= size + size / 2 + lacking_log_room(s);
}

/* Whether calls that take room may be tried: the disk has room again, or files were removed, whose room the store has. The reserve is made
 * again first. After a removal that is tried more than once, if servers wrote: each may have filled the log. */
static bool may_go_on(struct supervisor *s) {
  bool has = has_room(s), removed = !has && has_removed(s);
  if (!has && !removed && !s->tries_again) return false;
  s->next_try = now() + TRY_PAUSE;
  if (!save_reserve(s, lacking_log_room(s))) return false;
  s->tries = has ? 0 : removed ? MOST_TRIES : s->tries - 1;
  return true;
}

/* Whether a request that needed more room may have it now. */
static bool has_more_room(const struct supervisor *s) {
  long long more = s->kept_room / 2 + LEAST_ROOM, most = share_of_disk(s, LARGEST_RESERVE) / 2;
  return s->report->kept_back[0] != 0 && room_in_all(s) >= s->kept_room + (more < most ? more : most);
}

static void try_kept_back(struct supervisor *s) {
  for (size_t i = 0; i < KEPT_BACK; i++) s->report->kept_back[i] = 0;
  s->next_try = now() + TRY_PAUSE;
  say("there is more room: calls that need more than there was are tried again in %s", s->store);
}

static void go_on(struct supervisor *s) {
  s->is_full = s->tries_again = false;
  s->report->is_full = 0;
  say("there is room again: calls go on in %s", s->store);
}

/* If the disk gives less room than it shows, that is tried once in a while. */
bool look_for_room(struct supervisor *s) {
  if (!waits_for_room(s) || now() < s->next_try || !may_be_ended(s)) return false;
  bool has_more = has_more_room(s), goes_on = s->is_full && may_go_on(s);
  if (has_more) try_kept_back(s);
  if (goes_on) go_on(s);
  return has_more || goes_on;
}

bool waits_for_room(const struct supervisor *s) {
  return s->is_full || s->report->kept_back[0] != 0;
}

bool is_stuck(const struct supervisor *s) {
  return s->stop_requested && waits_for_room(s) && now() - s->stop_asked >= STOP_TIME;
}

void leave_reserve(struct supervisor *s) {
  if (s->store_room > 0) take_back_store_room(s);
  if (!s->has_reserve) save_reserve(s, 0);
}
