/* Changes the flags of a mount that is there, such as from rw to ro. Its servers aren't concerned. */
#define _GNU_SOURCE
#include "supervisor.h"
#include <errno.h>
#include <fcntl.h>
#include <stdlib.h>
#include <string.h>
#include <sys/mount.h>

enum { PATIENCE = 5000 }; /* milliseconds, for an answer of the mount */

/* Whether the root of this mount is open here. The file is open as a path, so that no server is asked. */
static bool is_root_of(const struct mounted *found, int file) {
  char path[PATH_MAX];
  return found->id == mount_id_of(file) && path_of(file, path) && strcmp(found->place, path) == 0;
}

static unsigned long apply_words(char *words, unsigned long flags) {
  for (char *word = strtok(words, ","); word; word = strtok(NULL, ",")) apply_flag(word, &flags);
  return flags;
}

/* Whether the mount can become synchronous: one that puts off flushes can't, nor one that doesn't say whether it does. */
static bool can_be_synchronous(const char *store, const char *place) {
  static struct answer answer;
  enum silence silence = ask(store, "status", NULL, 0, PATIENCE, &answer);
  if (silence != ANSWERED) return say_silence(silence, store, &answer), false;
  char *durability = value_of(&answer, "durability");
  bool is_ordered = durability && strcmp(durability, ORDERED_WORD) == 0;
  free(durability);
  if (is_ordered) say("%s is ordered: unmount it, and mount it with sync or dirsync", place);
  return !is_ordered;
}

/* Applies the words of the table of mounts, and then those of the command line. The old call changes flags alone: for FUSE the kernel
 * ignores all data that comes with it. */
static int change(const struct supervisor *s, const char *store, int file, struct mounted *found) {
  char path[PATH_MAX], link[LINE_SIZE], given[OPTIONS_SIZE];
  bool is_same = find_store(store, path) && strcmp(found->source, path) == 0;
  if (!is_same) return say("%s isn't mounted on %s: %s is", store, found->place, found->source), FAILED;
  if (geteuid() != 0) return say("only root can remount %s", found->place), FAILED;
  snprintf(link, sizeof link, "/proc/self/fd/%d", file);
  unsigned long before = apply_words(found->flags, 0), flags = apply_words(strcpy(given, s->options), before);
  if (flags & ~before & (MS_SYNCHRONOUS | MS_DIRSYNC) && !can_be_synchronous(path, found->place)) return FAILED;
  int status = mount(NULL, link, NULL, MS_REMOUNT | flags, NULL);
  return status == 0 || refused(found->place) ? 0 : FAILED;
}

int remount(const struct supervisor *s, const char *store, const char *mountpoint) {
  struct table table;
  struct mounted found;
  int status = FAILED, file = open(mountpoint, O_PATH | O_CLOEXEC);
  bool is_found = false;
  if (file < 0) return refused(mountpoint), FAILED;
  if (!open_table(&table, getpid())) return refused("/proc/self/mountinfo"), FAILED;
  while (!is_found && next_mount(&table, &found)) is_found = is_root_of(&found, file);
  if (is_found) status = change(s, store, file, &found);
  else say("nothing is mounted on %s that can be remounted", mountpoint);
  close_table(&table);
  close(file);
  return status;
}
