/* fusekeep-mount --backup: a copy of a store, as of one commit. While the store is mounted its supervisor copies it, into files that this
 * process makes. Then an engine begins a mount in the copy, as for any mount, which puts its log into it, and tries whether it can be
 * opened. The copy gets its name when it is whole, after its contents have theirs. */
#define _GNU_SOURCE
#include "supervisor.h"
#include <errno.h>
#include <fcntl.h>
#include <poll.h>
#include <stdlib.h>
#include <string.h>
#include <sys/wait.h>

enum { NAME_SIZE = 32, END_PAUSE = 100, END_TRIES = 100 }; /* bytes; milliseconds and tries while a mount ends */

static char made[PATH_MAX + NAME_SIZE];            /* the file that becomes the copy */
static char copy_path[PATH_MAX];

static void remove_made(const char *suffix) {
  char path[sizeof made + NAME_SIZE];
  snprintf(path, sizeof path, "%s%s", made, suffix);
  unlink(path);
}

static void remove_all_made(void) {
  static const char *const suffixes[] = {LOG_SUFFIX, DATA_SUFFIX, LOCK_SUFFIX, RESERVE_SUFFIX, ""};
  for (size_t i = 0; *made && i < sizeof suffixes / sizeof *suffixes; i++) remove_made(suffixes[i]);
}

static void give_up_by_signal(int number) {
  remove_all_made();
  _exit(128 + number);
}

static void take_signals(void) {
  static const int numbers[] = {SIGINT, SIGTERM, SIGHUP};
  for (size_t i = 0; i < sizeof numbers / sizeof *numbers; i++) signal(numbers[i], give_up_by_signal);
}

/* The path of a file beside the copy, whose name ends so. The next call overwrites it. */
static const char *beside_copy(const char *suffix) {
  static char path[PATH_SIZE];
  snprintf(path, sizeof path, "%s%s", copy_path, suffix);
  return path;
}

/* Whether it is there. */
static bool has_beside_copy(const char *suffix, struct stat *found) {
  return lstat(beside_copy(suffix), found) == 0;
}

/* Whether two files are one. */
static bool is_same(const struct stat *one, const struct stat *other) {
  return one->st_dev == other->st_dev && one->st_ino == other->st_ino;
}

/* Whether the copy may have its name. A file there would be lost, and a log or contents there would be taken for the copy's. */
static bool may_be_made(const struct supervisor *s, const char *store) {
  static struct answer answer;
  struct stat found, own;
  bool has_copy = has_beside_copy("", &found), is_file = has_copy && S_ISREG(found.st_mode);
  if (has_copy && stat(store, &own) == 0 && is_same(&own, &found))
    return say("%s is the store itself", copy_path), false;
  if (has_copy && !(s->replaces && is_file)) {
    say("%s is there already%s", copy_path, is_file ? ": --replace replaces it" : "");
    return false;
  }
  if (!s->replaces && has_beside_copy(LOG_SUFFIX, &found))
    return say("%s is there already, the log of another store: --replace removes it", beside_copy(LOG_SUFFIX)), false;
  if (!s->replaces && has_contents(beside_copy(DATA_SUFFIX)))
    return say("%s is there already, with the contents of another store: --replace removes it", beside_copy(DATA_SUFFIX)), false;
  if (has_copy && ask(copy_path, "server", NULL, 0, 0, &answer) != NOT_MOUNTED) return say("%s is mounted", copy_path), false;
  return true;
}

/* Makes a file beside the one that becomes the copy. */
static bool make_beside(const char *suffix, int *file) {
  char path[sizeof made + NAME_SIZE];
  snprintf(path, sizeof path, "%s%s", made, suffix);
  *file = open(path, O_RDWR | O_CREAT | O_EXCL | O_NOFOLLOW | O_CLOEXEC, 0600);
  return *file >= 0 || refused(path);
}

/* Makes the files, which nobody else may read. */
static bool make_files(int *files) {
  const char *name = strrchr(copy_path, '/');
  snprintf(made, sizeof made, "%.*s/.fusekeep-backup-XXXXXX", (int)(name - copy_path), copy_path);
  files[COPIED_STORE] = mkostemp(made, O_CLOEXEC);
  if (files[COPIED_STORE] < 0) {
    refused(copy_path);
    *made = '\0';
    return false;
  }
  return make_beside(LOG_SUFFIX, &files[COPIED_LOG]) && make_beside(DATA_SUFFIX, &files[COPIED_DATA]);
}

static bool copy_by_name(const char *path, int to) {
  bool is_reference, is_copied;
  int from = open(path, O_RDONLY | O_NOFOLLOW | O_CLOEXEC);
  if (from < 0) return errno == ENOENT;
  is_copied = copy_file(from, to, &is_reference);
  close(from);
  return is_copied;
}

static bool copy_held(struct supervisor *other, const int *files) {
  bool is_reference;
  open_data(other);
  if (!copy_by_name(other->store, files[COPIED_STORE]) || !copy_by_name(beside(other, LOG_SUFFIX), files[COPIED_LOG])) return false;
  return other->data_file < 0 || copy_file(other->data_file, files[COPIED_DATA], &is_reference);
}

/* Copies a store that isn't mounted, in a child that holds its lock as a mount does. */
static bool copy_unmounted(const char *store, const int *files) {
  static struct supervisor other;
  struct stat found;
  int status;
  if (stat(store, &found) != 0) return refused(store);
  pid_t child = fork_child();
  if (child == 0) {
    bool is_held = hold_store(&other, store), is_copied = false;
    if (is_held && other.is_new) say("%s is empty", store);
    else if (is_held) is_copied = copy_held(&other, files) || refused(store);
    leave_no_trace(&other);
    _exit(is_copied ? 0 : FAILED);
  }
  return child > 0 && waitpid(child, &status, 0) == child && status == 0;
}

static bool is_ending(const struct answer *answer) {
  return strcmp(answer->text.bytes, "error " ENDING_MOUNT "\n") == 0;
}

/* Copies the store, and says for how long its callers waited. */
static bool copy_store(const char *operand, const int *files) {
  static struct answer answer;
  char store[PATH_MAX];
  if (!find_store(operand, store)) return refused(operand);
  enum silence silence = ask(store, "backup", files, MOST_FILES, -1, &answer);
  for (int left = END_TRIES; left > 0 && silence == REFUSED && is_ending(&answer); left--) {
    poll(NULL, 0, END_PAUSE);
    silence = ask(store, "backup", files, MOST_FILES, -1, &answer);
  }
  if (silence == NOT_MOUNTED) return copy_unmounted(store, files);
  if (silence != ANSWERED) return say_silence(silence, operand, &answer), false;
  char *held = value_of(&answer, "held"), *way = value_of(&answer, "way");
  printf("calls waited for %s s; copied by %s\n", held ? held : "?", way ? way : "?");
  free(held);
  free(way);
  return true;
}

/* Whether two descriptors are of one file. */
static bool are_one(int one, int other) {
  struct stat own, found;
  return fstat(one, &own) == 0 && fstat(other, &found) == 0 && is_same(&own, &found);
}

/* Whether the files that are held are those to which the store was copied. */
static bool holds_copy(const struct supervisor *s, const int *files) {
  bool is_store = are_one(s->store_file, files[COPIED_STORE]), has_none = has_no_bytes(files[COPIED_DATA]);
  bool is_own = is_store && (has_none || are_one(s->data_file, files[COPIED_DATA]));
  if (!is_own) say("%s was replaced by another file", made);
  return is_own;
}

/* Begins a mount in the copy. Where nothing was copied to the data file, the store has none, or the engine makes it. */
static int begin_in_copy(struct supervisor *s, const int *files) {
  s->has_reserve = true;
  if (has_no_bytes(files[COPIED_DATA])) remove_made(DATA_SUFFIX);
  bool is_held = hold_store(s, made);
  if (is_held) open_data(s);
  int status = is_held && holds_copy(s, files) ? begin_in_store(s) : FAILED;
  if (status != 0) say("the copy can't be opened, so it is removed");
  return status;
}

static bool sync_folder(void) {
  char folder[PATH_MAX];
  strcpy(folder, copy_path);
  *strrchr(folder, '/') = '\0';
  int file = open(*folder ? folder : "/", O_RDONLY | O_DIRECTORY | O_CLOEXEC);
  bool is_synced = file >= 0 && fsync(file) == 0;
  if (file >= 0) close(file);
  return is_synced;
}

static bool remove_beside_copy(const char *suffix) {
  return unlink(beside_copy(suffix)) == 0 || errno == ENOENT || refused(beside_copy(suffix));
}

/* A log and contents of the copy's name belong to the file that it replaces. That goes before its contents do, so that it never stands
 * beside other ones. */
static bool clear_place(void) {
  if (!remove_beside_copy(LOG_SUFFIX)) return false;
  return !has_contents(beside_copy(DATA_SUFFIX)) || (remove_beside_copy("") && remove_beside_copy(DATA_SUFFIX));
}

/* Gives a file that was made a name of the copy. Contents have no file in their place, unless it is one of others. */
static bool name_file(const struct supervisor *s, int file, const char *suffix) {
  char from[sizeof made + NAME_SIZE];
  const char *to = beside_copy(suffix);
  snprintf(from, sizeof from, "%s%s", made, suffix);
  unsigned flags = s->replaces && !*suffix ? 0 : RENAME_NOREPLACE;
  if (fsync(file) != 0 || renameat2(AT_FDCWD, from, AT_FDCWD, to, flags) != 0) return refused(to);
  return true;
}

/* Prints the size of a file of the copy, unless another one has its name. */
static bool print_size(int file, const char *suffix) {
  struct stat found, named;
  if (fstat(file, &found) != 0 || !has_beside_copy(suffix, &named) || !is_same(&found, &named))
    return say("%s was replaced by another file", beside_copy(suffix)), false;
  return printf("%s has %lld bytes\n", beside_copy(suffix), (long long)found.st_size) > 0;
}

/* Gives the copy its name. */
static bool name_copy(const struct supervisor *s) {
  bool has_data = s->data_file >= 0;
  if ((s->replaces && !clear_place()) || (has_data && !name_file(s, s->data_file, DATA_SUFFIX))) return false;
  bool is_named = name_file(s, s->store_file, "");
  if (!is_named && has_data) remove_beside_copy(DATA_SUFFIX);
  if (!is_named) return false;
  if (!sync_folder()) return refused(copy_path);
  return print_size(s->store_file, "") && (!has_data || print_size(s->data_file, DATA_SUFFIX)) && fflush(stdout) == 0;
}

int back_up(struct supervisor *s, const char *copy, const char *store) {
  int files[MOST_FILES], status = FAILED;
  if (!find_engine(s) || !find_library(s) || !make_report(s)) return FAILED;
  if (!find_store(copy, copy_path)) return refused(copy), FAILED;
  if (!may_be_made(s, store)) return FAILED;
  take_signals();
  if (make_files(files) && copy_store(store, files)) status = begin_in_copy(s, files);
  if (status == 0 && !name_copy(s)) status = FAILED;
  remove_all_made();
  return status;
}
