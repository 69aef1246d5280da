/* The locks on a store, on its log and its contents, and on the lock's file beside them.
 *
 * SQLite and the servers lock bytes of a database, by a lock of an open file. Here this process locks them as long as the mount
 * lives, so that nobody gets between two servers. A server gets the same open files, and the library that it preloads makes its lock
 * calls on them: there the bytes are locked by the caller itself. So the lock goes when this process and its last server have ended. */
#define _GNU_SOURCE
#include "gather/gather.h"
#include "supervisor.h"
#include <errno.h>
#include <fcntl.h>
#include <poll.h>
#include <stdlib.h>
#include <sys/file.h>

enum { LOCK_PAUSE = 50, LOCK_TRIES = 20 }; /* a second, in which a mount of the store that is being unmounted may end, or its server */
enum { FILE_TRIES = 5 };                   /* where another process removes the lock's file */
enum { SQLITE_LOCKS = 1 << 30, SQLITE_LOCKS_SIZE = 512 }; /* the bytes of a database that SQLite locks */
enum { VALUE_SIZE = 64 };

bool lock_bytes(int file) {
  struct flock bytes = {.l_type = F_WRLCK, .l_whence = SEEK_SET, .l_start = SQLITE_LOCKS, .l_len = SQLITE_LOCKS_SIZE};
  for (int left = LOCK_TRIES; fcntl(file, F_OFD_SETLK, &bytes) != 0; poll(NULL, 0, LOCK_PAUSE))
    if ((errno != EAGAIN && errno != EACCES) || left-- == 0) return false;
  return true;
}

/* Whether a mount of the store has the lock's file locked. */
static bool has_mount(const struct supervisor *s) {
  int file = open_beside(s, LOCK_SUFFIX, O_RDONLY, NULL);
  bool has = file >= 0 && flock(file, LOCK_SH | LOCK_NB) != 0;
  if (file >= 0) close(file);
  return has;
}

bool lock_store(struct supervisor *s, const char *store) {
  if (lock_bytes(s->store_file)) return s->has_store = true;
  if (errno != EAGAIN && errno != EACCES) return refused(store);
  if (has_mount(s)) say_holder(s);
  else say_user(s, store);
  return false;
}

/* Locks the lock's file, unless another process does. */
static bool lock_file(const struct supervisor *s) {
  for (int left = LOCK_TRIES; flock(s->lock, LOCK_EX | LOCK_NB) != 0; poll(NULL, 0, LOCK_PAUSE))
    if (errno != EWOULDBLOCK || left-- == 0) return false;
  return is_named(s, s->lock, LOCK_SUFFIX);
}

/* A mount would have locked the store too. So a process that has locked the lock's file alone is no mount, and the file is made anew. */
bool take_lock(struct supervisor *s) {
  for (int left = FILE_TRIES; left > 0; left--) {
    s->lock = open_beside(s, LOCK_SUFFIX, O_RDWR | O_CREAT | O_APPEND, &s->made_lock);
    if (s->lock < 0) return unwritable(beside(s, LOCK_SUFFIX));
    if (lock_file(s)) return s->has_lock = true;
    if (is_named(s, s->lock, LOCK_SUFFIX)) remove_beside(s, LOCK_SUFFIX);
    close(s->lock);
  }
  say("%s can't be locked: other processes remove or lock it", beside(s, LOCK_SUFFIX));
  return false;
}

void pass_locks(const struct supervisor *s) {
  char value[VALUE_SIZE];
  fcntl(s->store_file, F_SETFD, 0);
  fcntl(s->log_file, F_SETFD, 0);
  int size = snprintf(value, sizeof value, "%d,%d", s->store_file, s->log_file);
  if (s->data_file >= 0 && fcntl(s->data_file, F_SETFD, 0) == 0) snprintf(value + size, sizeof value - (size_t)size, ",%d", s->data_file);
  setenv(LOCKED_VARIABLE, value, 1);
}
