/* The profile and the size of a new store. A store that is there has its own. */
#define _GNU_SOURCE
#include "supervisor.h"
#include <errno.h>
#include <stdlib.h>
#include <string.h>
#include <sys/statvfs.h>

enum { BLOCK = 4096 };                        /* bytes */
enum { SHARE = 8, LEAST_FOR_TABLES = 64 << 20 }; /* of the free space that tables and log take: a part, and bytes */

static const char plain[] = "plain", everyday[] = "everyday";
static const unsigned long long largest = (1ULL << 63) - BLOCK;

bool take_profile(struct supervisor *s, const char *word) {
  s->profile = strcmp(word, plain) == 0 ? plain : strcmp(word, everyday) == 0 ? everyday : NULL;
  if (!s->profile) say("the profile %s isn't known: it is plain or everyday", word);
  return s->profile;
}

/* The number of bytes of a suffix, which is K, M, G, T or none; 0 for another one. */
static unsigned long long unit_of(const char *suffix) {
  static const char units[] = "KMGT";
  if (!*suffix) return 1;
  const char *unit = strchr(units, *suffix);
  return unit && !suffix[1] ? 1024ULL << (10 * (unit - units)) : 0;
}

bool take_size(struct supervisor *s, const char *word) {
  char *suffix;
  errno = 0;
  unsigned long long number = strtoull(word, &suffix, 10), unit = unit_of(suffix);
  bool is_number = *word >= '0' && *word <= '9' && errno == 0 && unit > 0 && number <= largest / unit;
  if (!is_number) return say("size=%s: no number of bytes", word), false;
  if (number * unit < BLOCK) return say("size=%s: a store has room for %d bytes at least", word, BLOCK), false;
  s->size = number * unit / BLOCK * BLOCK;
  s->has_size = true;
  return true;
}

bool fits_profile(const struct supervisor *s) {
  bool fits = s->profile != plain || !s->has_size;
  if (!fits) say("a plain store has no size");
  return fits;
}

/* The capacity of a new store: nine tenths of the free space, less what tables and log take. A small disk leaves an eighth. */
static unsigned long long capacity_for(unsigned long long room) {
  unsigned long long share = room / SHARE, tables = share > LEAST_FOR_TABLES ? share : LEAST_FOR_TABLES;
  unsigned long long most = room / 10 * 9, capacity = most > tables + share ? most - tables : share;
  return (capacity < largest ? capacity : largest) / BLOCK * BLOCK;
}

void choose_profile(struct supervisor *s) {
  struct statvfs room;
  if (!s->is_new) {
    if (s->profile || s->has_size) say("%s has its own profile and size: profile=.. and size=.. are ignored", s->store);
    return;
  }
  if (!s->profile) s->profile = everyday;
  if (s->profile == plain || s->has_size || fstatvfs(s->folder, &room) != 0) return;
  s->size = capacity_for((unsigned long long)room.f_bavail * room.f_frsize);
  s->has_size = true;
}

/* The maker of a new store is the caller. Where root finds an empty file of another user, that user is. */
static void put_maker(const struct supervisor *s, char *owner) {
  bool is_caller = s->made_store || getuid() != 0;
  sprintf(owner, "%u:%u", is_caller ? getuid() : s->owner, is_caller ? getgid() : s->group);
}

size_t words_of_store(const struct supervisor *s, const char **words) {
  static char size[32], owner[32];
  size_t count = 0;
  if (!s->is_new) return 0;
  put_maker(s, owner);
  words[count++] = "--owner";
  words[count++] = owner;
  words[count++] = "--profile";
  words[count++] = s->profile;
  if (!s->has_size) return count;
  snprintf(size, sizeof size, "%llu", s->size);
  words[count++] = "--capacity";
  words[count++] = size;
  return count;
}
