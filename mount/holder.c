/* The process that holds a store which can't be mounted, found among the processes of this machine. */
#define _GNU_SOURCE
#include "supervisor.h"
#include <dirent.h>
#include <stdlib.h>
#include <string.h>

enum { NAME_SIZE = 32 }; /* bytes of /proc/PID/comm, and more */

/* The process that a line of /proc/locks names as the owner of a lock by flock(2) on this file, or 0. */
static pid_t owner_in_line(const char *line, ino_t file) {
  int process;
  unsigned long long inode;
  bool is_whole = sscanf(line, "%*d: FLOCK %*s %*s %9d %*x:%*x:%20llu", &process, &inode) == 2;
  return is_whole && inode == file ? process : 0;
}

/* The process that took the lock, or 0. Some file systems show another device there than fstat(2) does. */
static pid_t owner_of_lock(const struct supervisor *s) {
  struct stat lock;
  char line[LINE_SIZE];
  pid_t owner = 0;
  FILE *locks = stat(beside(s, LOCK_SUFFIX), &lock) == 0 ? fopen("/proc/locks", "re") : NULL;
  while (locks && owner == 0 && fgets(line, sizeof line, locks)) owner = owner_in_line(line, lock.st_ino);
  if (locks) fclose(locks);
  return owner;
}

/* The name of a process. The next call overwrites it. */
static const char *name_of(pid_t process) {
  static char name[NAME_SIZE];
  char path[LINE_SIZE];
  snprintf(path, sizeof path, "/proc/%d/comm", process);
  FILE *file = fopen(path, "re");
  if (!file || !fgets(name, sizeof name, file)) strcpy(name, "?");
  if (file) fclose(file);
  name[strcspn(name, "\n")] = '\0';
  return name;
}

/* Whether another process has the store's file open. The links are read and not followed: what they name may be on a mount that
 * doesn't answer. */
static bool has_store_open(const struct supervisor *s, pid_t process) {
  char folder[LINE_SIZE], link[2 * LINE_SIZE], target[PATH_MAX];
  bool has = false;
  snprintf(folder, sizeof folder, "/proc/%d/fd", process);
  DIR *descriptors = process == getpid() ? NULL : opendir(folder);
  if (!descriptors) return false;
  for (struct dirent *entry; !has && (entry = readdir(descriptors));) {
    snprintf(link, sizeof link, "%s/%s", folder, entry->d_name);
    ssize_t length = readlink(link, target, sizeof target - 1);
    target[length > 0 ? length : 0] = '\0';
    has = strcmp(target, s->store) == 0;
  }
  closedir(descriptors);
  return has;
}

static bool sees_mount(const struct supervisor *s, pid_t process) {
  char place[PATH_MAX];
  return find_place(s, process, place);
}

/* The first process of which this is true, or 0. */
static pid_t find_process(const struct supervisor *s, bool (*is_it)(const struct supervisor *, pid_t)) {
  pid_t found = 0;
  DIR *processes = opendir("/proc");
  if (!processes) return 0;
  for (struct dirent *entry; found == 0 && (entry = readdir(processes));) {
    pid_t process = atoi(entry->d_name);
    if (process > 0 && is_it(s, process)) found = process;
  }
  closedir(processes);
  return found;
}

void say_holder(const struct supervisor *s) {
  char place[PATH_MAX];
  pid_t owner = owner_of_lock(s), other = find_process(s, sees_mount);
  if (owner == 0) say("%s is mounted already: another fusekeep-mount holds %s", s->store, beside(s, LOCK_SUFFIX));
  else if (find_place(s, getpid(), place)) say("%s is mounted already: process %d serves it on %s", s->store, owner, place);
  else if (other == 0) say("%s is mounted already: process %d serves it, detached, until nobody uses it", s->store, owner);
  else say("%s is mounted already: process %d serves it, and process %d (%s) has the mount in its namespace",
           s->store, owner, other, name_of(other));
}

void say_user(const struct supervisor *s, const char *store) {
  pid_t user = find_process(s, has_store_open);
  if (user == 0) say("%s is held by another server, or by a program that has it open", store);
  else say("%s is held by process %d (%s), another server or a program that has it open", store, user, name_of(user));
}

void say_detached(const struct supervisor *s) {
  pid_t user = find_process(s, sees_mount);
  if (user == 0) say("%s isn't mounted on %s any more: it is served until nobody uses it", s->store, s->mountpoint);
  else say("%s isn't mounted on %s any more, but process %d (%s) has the mount in its namespace: it is served until nobody uses it",
           s->store, s->mountpoint, user, name_of(user));
}
