/* The table of mounts. */
#define _GNU_SOURCE
#include "supervisor.h"
#include <stdlib.h>
#include <string.h>

/* A field of the table, in which blanks and some other characters are written as three octal digits. getmntent(3) doesn't decode
 * the one for #. */
static char *plain(char *field) {
  char *to = field;
  unsigned byte;
  for (const char *from = field; *from; to++) {
    int length = 0;
    bool is_octal = sscanf(from, "\\%3o%n", &byte, &length) == 1;
    *to = is_octal ? (char)byte : *from;
    from += is_octal ? length : 1;
  }
  *to = '\0';
  return field;
}

/* Reads a line of proc_pid_mountinfo(5): id and device are its first and third field, the mountpoint is its fifth one; type, source and
 * options of the file system follow a field of one dash. */
static bool read_line(char *line, struct mounted *found) {
  char *rest, *field = strtok_r(line, " \n", &rest);
  *found = (struct mounted){.user = (uid_t)-1};
  for (int number = 1; field && strcmp(field, "-") != 0; number++) {
    if (number == 1) found->id = atoi(field);
    if (number == 3) sscanf(field, "%*u:%u", &found->minor);
    if (number == 5) found->place = plain(field);
    if (number == 6) found->flags = field;
    field = strtok_r(NULL, " \n", &rest);
  }
  found->kind = field ? strtok_r(NULL, " \n", &rest) : NULL;
  found->source = found->kind ? strtok_r(NULL, " \n", &rest) : NULL;
  const char *options = found->source ? strtok_r(NULL, " \n", &rest) : NULL;
  const char *user = options ? strstr(options, "user_id=") : NULL;
  if (user) found->user = (uid_t)strtoul(user + strlen("user_id="), NULL, 10);
  return found->place && found->source && plain(found->source);
}

bool open_table(struct table *table, pid_t process) {
  char path[LINE_SIZE];
  snprintf(path, sizeof path, "/proc/%d/mountinfo", process);
  *table = (struct table){.file = fopen(path, "re")};
  return table->file;
}

bool next_mount(struct table *table, struct mounted *found) {
  while (getline(&table->line, &table->size, table->file) > 0)
    if (read_line(table->line, found) && strcmp(found->kind, "fuse.fusekeep") == 0) return true;
  return false;
}

void close_table(struct table *table) {
  free(table->line);
  fclose(table->file);
}

static bool is_of(const struct supervisor *s, const struct mounted *found) {
  return strcmp(found->kind, "fuse.fusekeep") == 0 && strcmp(found->source, s->store) == 0;
}

bool find_place(const struct supervisor *s, pid_t process, char *place) {
  struct table table;
  struct mounted found;
  bool is_found = false;
  if (!open_table(&table, process)) return false;
  while (!is_found && next_mount(&table, &found)) is_found = is_of(s, &found);
  if (is_found) snprintf(place, PATH_MAX, "%s", found.place);
  close_table(&table);
  return is_found;
}

int mount_id_of(int file) {
  char path[LINE_SIZE], line[LINE_SIZE];
  int id = -1;
  snprintf(path, sizeof path, "/proc/self/fdinfo/%d", file);
  FILE *facts = fopen(path, "re");
  if (!facts) return -1;
  while (fgets(line, sizeof line, facts) && sscanf(line, "mnt_id: %d", &id) != 1) continue;
  fclose(facts);
  return id;
}

bool path_of(int file, char *path) {
  char link[LINE_SIZE];
  snprintf(link, sizeof link, "/proc/self/fd/%d", file);
  ssize_t length = readlink(link, path, PATH_MAX - 1);
  path[length > 0 ? length : 0] = '\0';
  return length > 0;
}
