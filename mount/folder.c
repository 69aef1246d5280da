/* The folder of a store. It is opened once, and all files of the mount are opened by its descriptor, so that they are in one folder,
 * whatever is done to the names above it meanwhile. */
#define _GNU_SOURCE
#include "supervisor.h"
#include <errno.h>
#include <fcntl.h>
#include <stdlib.h>
#include <string.h>

enum { OTHERS_READ = S_IRGRP | S_IROTH, OTHERS_WRITE = S_IWGRP | S_IWOTH, OWN_MODE = S_IRUSR | S_IWUSR };
enum { MAKING_TRIES = 5 }; /* where another process makes and removes the same name */

const char *beside(const struct supervisor *s, const char *suffix) {
  static char path[PATH_SIZE];
  snprintf(path, sizeof path, "%s%s", s->store, suffix);
  return path;
}

const char *name_beside(const struct supervisor *s, const char *suffix) {
  static char name[PATH_SIZE];
  snprintf(name, sizeof name, "%s%s", strrchr(s->store, '/') + 1, suffix);
  return name;
}

const char *folder_of(const struct supervisor *s) {
  static char folder[PATH_MAX];
  strcpy(folder, s->store);
  char *end = strrchr(folder, '/');
  end[end == folder] = '\0';
  return folder;
}

bool unwritable(const char *path) {
  if (errno == ELOOP) say("%s is a symbolic link", path);
  else if (errno == EPERM) say("%s isn't a regular file of the store's owner", path);
  else say("%s can't be written: %s", path, strerror(errno));
  return false;
}

bool find_store(const char *file, char *path) {
  char folder[PATH_MAX];
  if (realpath(file, path)) return true;
  const char *slash = strrchr(file, '/'), *name = slash ? slash + 1 : file;
  if (errno != ENOENT || !*name || strlen(file) >= sizeof folder) return false;
  snprintf(folder, sizeof folder, "%.*s", (int)(name - file), file);
  if (!realpath(slash ? folder : ".", path)) return false;
  size_t length = strlen(path);
  const char *between = path[length - 1] == '/' ? "" : "/";
  return snprintf(path + length, PATH_MAX - length, "%s%s", between, name) < (int)(PATH_MAX - length) || (errno = ENAMETOOLONG, false);
}

/* A link is followed here alone: the store is the file that it leads to, and the files beside it are beside that one. The path of a copy
 * that is being made has none, unless another user has put it there. */
static bool open_folder(struct supervisor *s, const char *store) {
  if (!find_store(store, s->store)) return unwritable(store);
  if (s->copy && strcmp(s->store, store) != 0) return errno = ELOOP, unwritable(store);
  s->folder = open(folder_of(s), O_RDONLY | O_DIRECTORY | O_NOFOLLOW | O_CLOEXEC);
  return s->folder >= 0 || unwritable(store);
}

/* Opens a file of the folder, and says whether this call made it. */
static int open_or_make(const struct supervisor *s, const char *name, int flags, bool *made) {
  int file = -1;
  flags |= O_NOFOLLOW | O_NONBLOCK | O_NOCTTY | O_CLOEXEC;
  *made = false;
  for (int left = MAKING_TRIES; file < 0 && left > 0; left--) {
    file = openat(s->folder, name, flags & ~O_CREAT);
    if (file >= 0 || errno != ENOENT || !(flags & O_CREAT)) return file;
    file = openat(s->folder, name, flags | O_EXCL, OWN_MODE);
    *made = file >= 0;
    if (file < 0 && errno != EEXIST) return file;
  }
  return file;
}

/* Whether an existing store may be used: one of the caller's own, and by root any. */
static bool is_safe(const char *store, const struct stat *found) {
  unsigned mode = found->st_mode & 0777U;
  if (!S_ISREG(found->st_mode)) return say("%s isn't a regular file", store), false;
  if (found->st_uid != geteuid() && geteuid() != 0) return say("%s belongs to another user", store), false;
  if (mode & OTHERS_WRITE) return say("others can write %s: run chmod 600 %s %s" LOG_SUFFIX " first", store, store, store), false;
  if (mode & OTHERS_READ) say("others can read %s, and what was removed from it: run chmod 600 %s %s" LOG_SUFFIX, store, store, store);
  return true;
}

bool open_store(struct supervisor *s, const char *store) {
  struct stat found;
  if (!open_folder(s, store)) return false;
  s->store_file = open_or_make(s, name_beside(s, ""), O_RDWR | O_CREAT, &s->made_store);
  if (s->store_file < 0) return unwritable(store);
  if (fstat(s->store_file, &found) != 0) return refused(store);
  s->is_new = found.st_size == 0;
  return is_safe(store, &found);
}

/* Whether a file may be used beside the store: it is the one of its name, and nobody but its owner may open it from here on. */
static bool make_own(const struct supervisor *s, int file, bool made) {
  struct stat found;
  if (fstat(file, &found) != 0) return false;
  if (made && geteuid() == 0 && fchown(file, s->owner, s->group) != 0) return false;
  bool is_own = S_ISREG(found.st_mode) && found.st_nlink == 1 && (made || found.st_uid == s->owner || found.st_uid == geteuid());
  if (!is_own) return errno = EPERM, false;
  return (found.st_mode & 0777) == OWN_MODE || fchmod(file, OWN_MODE) == 0;
}

int open_beside(const struct supervisor *s, const char *suffix, int flags, bool *made) {
  bool is_made;
  int file = open_or_make(s, name_beside(s, suffix), flags, &is_made);
  if (made) *made = is_made;
  if (file < 0 || make_own(s, file, is_made)) return file;
  int error = errno;
  close(file);
  errno = error;
  return -1;
}

bool is_named(const struct supervisor *s, int file, const char *suffix) {
  struct stat own, named;
  if (fstat(file, &own) != 0 || fstatat(s->folder, name_beside(s, suffix), &named, AT_SYMLINK_NOFOLLOW) != 0) return false;
  return own.st_dev == named.st_dev && own.st_ino == named.st_ino;
}

void remove_beside(const struct supervisor *s, const char *suffix) {
  unlinkat(s->folder, name_beside(s, suffix), 0);
}

bool has_no_bytes(int file) {
  struct stat found;
  return file >= 0 && fstat(file, &found) == 0 && found.st_size == 0;
}
