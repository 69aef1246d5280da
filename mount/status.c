/* fusekeep-mount --status. Nothing here waits for a mount: its files are never looked at, except by a child that is left alone. */
#define _GNU_SOURCE
#include "supervisor.h"
#include <errno.h>
#include <fcntl.h>
#include <linux/magic.h>
#include <poll.h>
#include <stdlib.h>
#include <string.h>
#include <sys/vfs.h>
#include <sys/wait.h>

enum { PATIENCE = 5000, STATFS_PATIENCE = 1000 };  /* milliseconds: of an answer; of statfs(2) */
enum { NUMBER_SIZE = 64 };

/* What is printed: words, numbers, and numbers of bytes. */
static const struct { const char *name; enum { WORDS, NUMBER, BYTES } kind; } lines[] = {
  {"store", WORDS}, {"mountpoint", WORDS}, {"state", WORDS}, {"durability", WORDS}, {"mounted", WORDS},
  {"supervisor", NUMBER}, {"server", NUMBER},
  {"servers", NUMBER}, {"deaths", NUMBER}, {"last_death", WORDS}, {"last_death_signal", NUMBER}, {"last_death_status", NUMBER},
  {"last_death_lived", NUMBER}, {"last_death_line", WORDS}, {"restart_median", NUMBER}, {"restart_longest", NUMBER},
  {"requests", NUMBER}, {"groups", NUMBER}, {"flushes", NUMBER}, {"unanswered", NUMBER}, {"waiting", NUMBER}, {"memory", BYTES}, {"store_bytes", BYTES},
  {"log_bytes", BYTES}, {"data_bytes", BYTES}, {"capacity", BYTES}, {"used", BYTES},
};

static bool has_printed;

/* Asks for the room of a mount in a child, and waits for it no longer than a moment. Where the server has read the request and hangs, the
 * child ends when that server does. It has none of this program's descriptors. */
static bool measure(const char *place, struct statfs *found) {
  int ends[2];
  if (pipe2(ends, O_CLOEXEC) != 0) return false;
  pid_t child = fork();
  if (child == 0) {
    int to = dup2(ends[1], STDIN_FILENO);
    close_range(STDIN_FILENO + 1, ~0U, 0);
    bool is_found = to == STDIN_FILENO && statfs(place, found) == 0 && found->f_type == FUSE_SUPER_MAGIC;
    _exit(is_found && write(STDIN_FILENO, found, sizeof *found) == sizeof *found ? 0 : FAILED);
  }
  close(ends[1]);
  struct pollfd answer = {.fd = ends[0], .events = POLLIN};
  bool is_found = child > 0 && poll(&answer, 1, STATFS_PATIENCE) == 1 && read(ends[0], found, sizeof *found) == sizeof *found;
  close(ends[0]);
  if (child > 0) kill(child, SIGKILL), waitpid(child, NULL, WNOHANG);
  return is_found;
}

/* Adds the lines of capacity and use to the answer of a mount that serves. Another user's mount shows none, and one whose server has
 * worked at a request for more than a second isn't asked. */
static void add_room(struct answer *answer) {
  struct statfs room;
  if (number_of(answer, "unanswered") > 0) return;
  char *place = value_of(answer, "mountpoint"), *state = value_of(answer, "state");
  bool is_known = place && state && strcmp(state, "serving") == 0 && measure(place, &room) && room.f_blocks > 0;
  if (is_known) {
    put(&answer->text, "capacity %llu\n", (unsigned long long)room.f_blocks * (unsigned long long)room.f_frsize);
    put(&answer->text, "used %llu\n", (unsigned long long)(room.f_blocks - room.f_bfree) * (unsigned long long)room.f_frsize);
  }
  free(place);
  free(state);
}

/* A number of bytes in the largest unit of which there is one. */
static const char *in_units(const char *number, char *text) {
  static const char units[] = "KMGT";
  double bytes = strtod(number, NULL);
  int unit = -1;
  for (; bytes >= 1024 && units[unit + 1]; unit++) bytes /= 1024;
  if (unit < 0) snprintf(text, NUMBER_SIZE, "%s bytes", number);
  else snprintf(text, NUMBER_SIZE, "%.1f %ciB", bytes, units[unit]);
  return text;
}

static void print_words(const char *words) {
  static char text[ESCAPED_BYTE * (PATH_SIZE + LINE_SIZE)];
  escape(text, sizeof text, words, strlen(words), "");
  fputs(text, stdout);
}

static void print_line(const char *name, int kind, const char *value) {
  char number[NUMBER_SIZE];
  printf("%-18s ", name);
  print_words(kind == BYTES ? in_units(value, number) : value);
  putchar('\n');
}

static void print_lines(const struct answer *answer) {
  if (has_printed) putchar('\n');
  for (size_t i = 0; i < sizeof lines / sizeof *lines; i++) {
    char *value = value_of(answer, lines[i].name);
    if (value && *value) print_line(lines[i].name, lines[i].kind, value);
    free(value);
  }
}

static void print_object(const struct answer *answer) {
  if (has_printed) printf(",\n");
  printf("{");
  for (size_t i = 0; i < sizeof lines / sizeof *lines; i++) {
    char *value = value_of(answer, lines[i].name);
    printf("%s\"%s\": ", i > 0 ? ", " : "", lines[i].name);
    if (!value) printf("null");
    else if (lines[i].kind == WORDS) print_json_text(value);
    else print_json_number(value);
    free(value);
  }
  printf("}");
}

static void print_answer(const struct answer *answer, bool as_json) {
  if (as_json) print_object(answer);
  else print_lines(answer);
  has_printed = true;
}

/* What is known of a mount that gives no answer: where the table of mounts has it. */
static void print_silent(const char *store, const char *place, bool as_json) {
  static struct answer answer;
  answer.text.length = 0;
  put_value(&answer.text, "store", store);
  put_value(&answer.text, "mountpoint", place);
  put_value(&answer.text, "state", "no answer");
  print_answer(&answer, as_json);
}

static bool print_mount(const char *store, const char *place, bool as_json) {
  static struct answer answer;
  enum silence silence = ask(store, "status", NULL, 0, PATIENCE, &answer);
  if (silence == ANSWERED) {
    add_room(&answer);
    print_answer(&answer, as_json);
    return true;
  }
  if (silence == NOT_MOUNTED && place) say("%s is mounted on %s, but its fusekeep-mount has ended: run umount -l %s", store, place, place);
  else say_silence(silence, store, &answer);
  if (place) print_silent(store, place, as_json);
  return false;
}

/* The mount that has this id. */
static bool print_mount_with(int id, const char *place, bool as_json, bool *is_found) {
  struct table table;
  struct mounted mounted;
  bool is_printed = false;
  *is_found = false;
  if (!open_table(&table, getpid())) return false;
  while (!*is_found && next_mount(&table, &mounted)) *is_found = mounted.id == id && strcmp(mounted.place, place) == 0;
  if (*is_found) is_printed = print_mount(mounted.source, mounted.place, as_json);
  close_table(&table);
  return is_printed;
}

/* The operand is a mountpoint if the root of a mount is there, else a store. It is opened as a path, which asks no server. */
static bool print_operand(const char *operand, bool as_json) {
  char path[PATH_MAX];
  bool is_mountpoint = false;
  int file = open(operand, O_PATH | O_CLOEXEC);
  if (file < 0) return find_store(operand, path) ? print_mount(path, NULL, as_json) : refused(operand);
  if (!path_of(file, path)) return refused(operand);
  bool is_printed = print_mount_with(mount_id_of(file), path, as_json, &is_mountpoint);
  close(file);
  return is_mountpoint ? is_printed : print_mount(path, NULL, as_json);
}

/* All mounts of this user; for root, all. */
static bool print_all(bool as_json) {
  struct table table;
  struct mounted mounted;
  bool is_whole = true;
  if (!open_table(&table, getpid())) return refused("/proc/self/mountinfo");
  while (next_mount(&table, &mounted))
    if (geteuid() == 0 || mounted.user == getuid()) is_whole = print_mount(mounted.source, mounted.place, as_json) && is_whole;
  close_table(&table);
  return is_whole;
}

int print_status(const char *operand, bool as_json) {
  if (as_json && !operand) printf("[");
  bool is_whole = operand ? print_operand(operand, as_json) : print_all(as_json);
  if (as_json && !operand) printf("]");
  if (as_json && (has_printed || !operand)) putchar('\n');
  return fflush(stdout) == 0 && !ferror(stdout) && is_whole ? 0 : FAILED;
}
