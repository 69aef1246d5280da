/* The data file of a store, which has contents of files. An everyday store of version 3 has one, and no other store has; which store it is
 * only an engine knows. An engine can't make a file. So one that is missing is made before an engine runs, and goes again where the engine
 * has left it empty. */
#define _GNU_SOURCE
#include "supervisor.h"
#include <errno.h>
#include <fcntl.h>
#include <string.h>

/* With which a data file begins. */
static const char text[] = "fusekeep content";

enum { TEXT_SIZE = sizeof text - 1 };

/* The number of the first bytes that are those of the text. A cut of power may have left zeros, which count for any byte. */
static size_t fitting(const char *bytes) {
  size_t count = 0;
  while (count < TEXT_SIZE && (bytes[count] == text[count] || bytes[count] == 0)) count++;
  return count;
}

/* Whether a file that is no data file has the name. It isn't touched. */
static bool is_taken(const struct supervisor *s) {
  char first[TEXT_SIZE] = {0};
  struct stat found;
  int file = openat(s->folder, name_beside(s, DATA_SUFFIX), O_RDONLY | O_NOFOLLOW | O_NONBLOCK | O_NOCTTY | O_CLOEXEC);
  if (file < 0) return errno != ENOENT;
  bool is_data = fstat(file, &found) == 0 && S_ISREG(found.st_mode) && pread(file, first, TEXT_SIZE, 0) >= 0 && fitting(first) == TEXT_SIZE;
  close(file);
  return !is_data;
}

void open_data(struct supervisor *s) {
  bool is_plain = s->is_new && s->profile && strcmp(s->profile, "plain") == 0;
  if (s->data_file >= 0 || is_plain || is_taken(s)) return;
  int file = open_beside(s, DATA_SUFFIX, O_RDWR | O_CREAT, &s->made_data);
  if (file >= 0 && !lock_bytes(file)) {
    close(file);
    file = -1;
  }
  s->data_file = file;
  s->made_data = s->made_data && file >= 0;
  watch_data(s);
}

void drop_data(struct supervisor *s) {
  if (!s->made_data || !has_no_bytes(s->data_file)) return;
  if (is_named(s, s->data_file, DATA_SUFFIX)) remove_beside(s, DATA_SUFFIX);
  close(s->data_file);
  s->data_file = -1;
  s->made_data = false;
}

/* A store that is there, and empty, is another matter: a mount that was to make it may have been killed. */
bool suits_data(const struct supervisor *s) {
  bool is_other = s->made_store && !s->made_data && s->data_file >= 0 && !has_no_bytes(s->data_file);
  const char *path = beside(s, DATA_SUFFIX);
  if (is_other) say("%s is there already, with the contents of another store: put that store back, or move them away", path);
  return !is_other;
}

void explain_data(const struct supervisor *s) {
  char shown[ESCAPED_BYTE * PATH_SIZE];
  const char *path = beside(s, DATA_SUFFIX);
  escape(shown, sizeof shown, path, strlen(path), "");
  if (s->data_file >= 0 || !strstr(last_line(s), shown)) return;
  say("%s isn't given to engines: it must be a regular file of the store's owner, with one name, that begins as contents of a store do and "
      "that no other process has locked", path);
}

bool has_contents(const char *path) {
  char first[TEXT_SIZE];
  int file = open(path, O_RDONLY | O_NOFOLLOW | O_NONBLOCK | O_NOCTTY | O_CLOEXEC);
  if (file < 0) return false;
  bool has = pread(file, first, TEXT_SIZE, 0) == TEXT_SIZE && memcmp(first, text, TEXT_SIZE) == 0;
  close(file);
  return has;
}
