/* What an engine may do: its process has the ids of the store's owner and no capabilities. The library that it preloads then confines it
 * further (gather/confine.c). */
#define _GNU_SOURCE
#include "supervisor.h"
#include <errno.h>
#include <fcntl.h>
#include <grp.h>
#include <linux/capability.h>
#include <linux/landlock.h>
#include <sys/fsuid.h>
#include <sys/prctl.h>
#include <sys/resource.h>
#include <sys/syscall.h>

/* Capabilities leave the bounding set while there is a right to that. Root without it, as in some containers, keeps the set, which
 * counts for nothing in a process that gains no privileges. */
static bool empty_bounding_set(void) {
  for (unsigned long capability = 0; prctl(PR_CAPBSET_READ, capability) >= 0; capability++)
    if (prctl(PR_CAPBSET_DROP, capability) != 0 && errno != EPERM) return false;
  return true;
}

static bool drop_capabilities(void) {
  struct __user_cap_header_struct head = {.version = _LINUX_CAPABILITY_VERSION_3};
  struct __user_cap_data_struct none[_LINUX_CAPABILITY_U32S_3] = {0};
  return prctl(PR_CAP_AMBIENT, PR_CAP_AMBIENT_CLEAR_ALL, 0, 0, 0) == 0 && syscall(SYS_capset, &head, none) == 0;
}

/* Root becomes the store's owner. A namespace may forbid that groups are changed; then these are those of its maker. */
static bool become_owner(const struct supervisor *s) {
  if (geteuid() != 0) return true;
  if (setgroups(0, NULL) != 0 && errno != EPERM) return false;
  return setresgid(s->group, s->group, s->group) == 0 && setresuid(s->owner, s->owner, s->owner) == 0;
}

/* A change of ids clears the signal at the parent's death. */
bool drop_privileges(const struct supervisor *s) {
  struct rlimit none = {0};
  prctl(PR_SET_IO_FLUSHER, 1, 0, 0, 0);
  return setrlimit(RLIMIT_CORE, &none) == 0 && empty_bounding_set() && become_owner(s) && drop_capabilities() &&
         prctl(PR_SET_NO_NEW_PRIVS, 1, 0, 0, 0) == 0 && prctl(PR_SET_PDEATHSIG, SIGKILL) == 0;
}

bool suits_owner(struct supervisor *s, int file, const char *store) {
  struct stat found;
  if (fstat(file, &found) != 0) return refused(store);
  s->owner = found.st_uid;
  s->group = found.st_gid;
  if (geteuid() != 0 || (found.st_mode & 0600) == 0600) return true;
  return say("its owner can't read and write %s, and servers run as its owner: chmod u+rw gives that right", store), false;
}

/* The kernel looks at the ids of the file system alone, and takes root's rights to files from one that isn't root. Root without
 * capabilities is tried as another user is: by the folder's bits. */
bool owner_may_enter(const struct supervisor *s) {
  struct stat folder;
  if (geteuid() != 0 || stat(folder_of(s), &folder) != 0) return true;
  if (s->owner == 0) return (folder.st_mode & (folder.st_uid == 0 ? 0500 : folder.st_gid == 0 ? 0050 : 0005)) != 0;
  setfsuid(s->owner);
  bool may = faccessat(AT_FDCWD, folder_of(s), R_OK | X_OK, AT_EACCESS) == 0;
  setfsuid(0);
  return may;
}

void say_unconfined(const struct supervisor *s) {
  if (syscall(SYS_landlock_create_ruleset, NULL, 0, LANDLOCK_CREATE_RULESET_VERSION) > 0) return;
  say("this kernel has no Landlock: the servers of %s may open all files that its owner may", s->store);
}
