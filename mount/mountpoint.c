/* The directory on which a store is mounted. It is opened once, so that nobody who may rename it, or what is above it, chooses another one
 * meanwhile. The mount is known by its id. */
#define _GNU_SOURCE
#include "supervisor.h"
#include <dirent.h>
#include <errno.h>
#include <fcntl.h>
#include <stdlib.h>
#include <string.h>

/* Opens a directory by a path that has no symbolic link any more, name by name: openat2(2) would do it at once, but a filter of system
 * calls that looks at the flags of an open refuses it. */
static int open_directory(const char *path) {
  char names[PATH_MAX], *rest;
  int directory = open("/", O_PATH | O_DIRECTORY | O_CLOEXEC);
  snprintf(names, sizeof names, "%s", path);
  for (char *name = strtok_r(names, "/", &rest); name && directory >= 0; name = strtok_r(NULL, "/", &rest)) {
    int above = directory;
    directory = openat(above, name, O_PATH | O_DIRECTORY | O_NOFOLLOW | O_CLOEXEC);
    close(above);
  }
  return directory;
}

/* A directory that this process may not read passes for an empty one. */
static bool is_empty(int directory) {
  bool is_empty = true;
  int file = openat(directory, ".", O_RDONLY | O_DIRECTORY | O_CLOEXEC);
  DIR *entries = file < 0 ? NULL : fdopendir(file);
  if (!entries) return true;
  for (struct dirent *entry; is_empty && (entry = readdir(entries));)
    is_empty = strcmp(entry->d_name, ".") == 0 || strcmp(entry->d_name, "..") == 0;
  closedir(entries);
  return is_empty;
}

/* As mount(8) does, links are followed that are there when this program is called. Those made later are refused. */
bool find_mountpoint(struct supervisor *s, const char *mountpoint) {
  if (!realpath(mountpoint, s->mountpoint)) return refused(mountpoint);
  s->place = open_directory(s->mountpoint);
  if (s->place < 0) return refused(mountpoint);
  if (s->allows_entries || is_empty(s->place)) return true;
  return say("%s isn't empty: its entries would be hidden (-o nonempty allows that)", mountpoint), false;
}

/* The last name of the mountpoint, by which a path within its parent reaches what is mounted there. */
static const char *name_of(const struct supervisor *s) {
  const char *name = strrchr(s->mountpoint, '/') + 1;
  return *name ? name : ".";
}

void enter_parent(const struct supervisor *s) {
  unsigned folder = (unsigned)s->folder;
  if (fchdir(s->parent) != 0) _exit(errno);
  if (folder > FIRST_OTHER) close_range(FIRST_OTHER, folder - 1, 0);
  close_range(folder + 1, ~0U, 0);
}

const char *open_root(const struct supervisor *s, int *root) {
  const char *name = name_of(s);
  *root = open(name, O_PATH | O_NOFOLLOW | O_CLOEXEC);
  if (*root >= 0 && mount_id_of(*root) == s->mount_id) return name;
  if (*root >= 0) close(*root);
  *root = -1;
  return NULL;
}

/* The directory may have another path by now. */
bool note_mount(struct supervisor *s) {
  struct table table;
  struct mounted found;
  s->mount_id = -1;
  s->parent = openat(s->place, "..", O_PATH | O_DIRECTORY | O_CLOEXEC);
  if (s->parent < 0 || !path_of(s->place, s->mountpoint) || !open_table(&table, getpid())) return refused(s->mountpoint);
  while (next_mount(&table, &found)) {
    bool is_own = found.user == getuid() && strcmp(found.source, s->store) == 0 && strcmp(found.place, s->mountpoint) == 0;
    if (!is_own) continue;
    s->mount_id = found.id;
    s->history.connection = found.minor;
    s->history.has_connection = true;
  }
  close_table(&table);
  close(s->place);
  if (s->mount_id < 0) say("%s isn't in the table of mounts", s->mountpoint);
  return s->mount_id >= 0;
}
