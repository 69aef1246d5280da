/* The command line of fusekeep-mount, and of mount.fuse.fusekeep. */
#define _GNU_SOURCE
#include "supervisor.h"
#include <getopt.h>
#include <stdio.h>
#include <stdlib.h>
#include <string.h>
#include <sys/mount.h>
#include <unistd.h>

static const struct { const char *word; unsigned long set, clear; } flag_words[] = {
  {"rw", 0, MS_RDONLY}, {"ro", MS_RDONLY, 0},
  {"suid", 0, MS_NOSUID}, {"nosuid", MS_NOSUID, 0},
  {"dev", 0, MS_NODEV}, {"nodev", MS_NODEV, 0},
  {"exec", 0, MS_NOEXEC}, {"noexec", MS_NOEXEC, 0},
  {"async", 0, MS_SYNCHRONOUS}, {"sync", MS_SYNCHRONOUS, 0}, {"dirsync", MS_DIRSYNC, 0},
  {"atime", 0, MS_NOATIME}, {"noatime", MS_NOATIME, 0},
  {"diratime", 0, MS_NODIRATIME}, {"nodiratime", MS_NODIRATIME, 0},
  {"relatime", MS_RELATIME, 0}, {"norelatime", 0, MS_RELATIME}, {"strictatime", MS_STRICTATIME, 0},
};

/* Words of /etc/fstab for other programs; those that end in = or - are prefixes. */
static const char *const others_words[] = {
  "defaults", "auto", "noauto", "nofail", "_netdev", "user", "nouser", "users", "owner", "group",
  "user=", "comment=", "x-", "X-",
};

/* Options of libfuse that a mount can't have, and why. Those that end in = are prefixes. */
static const struct { const char *word, *why; } foreign_words[] = {
  {"allow_root", "the kernel lets in the user who mounted or, with allow_other, all users"},
  {"fsname=", "the source of a mount is its store, by which it is found"},
  {"subtype=", "it is fusekeep"},
  {"uid=", "a store has the owner of each file"},
  {"gid=", "a store has the group of each file"},
  {"umask=", "a store has the mode of each file"},
};

static bool begins(const char *word, const char *prefix) {
  return strncmp(word, prefix, strlen(prefix)) == 0;
}

static bool is_for_others(const char *word) {
  for (size_t i = 0; i < sizeof others_words / sizeof *others_words; i++) {
    const char *other = others_words[i];
    bool is_prefix = strchr("=-", other[strlen(other) - 1]);
    if (is_prefix ? begins(word, other) : strcmp(word, other) == 0) return true;
  }
  return false;
}

static bool is_max_read(const char *word) {
  if (!begins(word, "max_read=")) return false;
  const char *digits = word + strlen("max_read=");
  return *digits && !digits[strspn(digits, "0123456789")];
}

/* Takes an option that says how servers work. */
static bool takes_way(struct supervisor *s, const char *word) {
  if (strcmp(word, "wary") == 0) s->wary = true;
  else if (strcmp(word, "durable") == 0) s->way = DURABLE;
  else if (strcmp(word, "ordered") == 0) s->way = ORDERED;
  else if (strcmp(word, "volatile") == 0) s->way = VOLATILE;
  else if (strcmp(word, "groups") == 0) s->groups = GROUPS;
  else if (strcmp(word, "nogroups") == 0) s->groups = NO_GROUPS;
  else if (strcmp(word, "nonempty") == 0) s->allows_entries = true;
  else return false;
  return true;
}

static bool append(char *list, const char *word) {
  size_t used = strlen(list);
  if (snprintf(list + used, OPTIONS_SIZE - used, ",%s", word) < (int)(OPTIONS_SIZE - used)) return true;
  say("too many options");
  return false;
}

static void say_unknown(const char *word) {
  for (size_t i = 0; i < sizeof foreign_words / sizeof *foreign_words; i++) {
    const char *other = foreign_words[i].word;
    if (other[strlen(other) - 1] == '=' ? begins(word, other) : strcmp(word, other) == 0) {
      say("the option %s can't be given: %s", word, foreign_words[i].why);
      return;
    }
  }
  say("the option %s isn't known", word);
}

bool apply_flag(const char *word, unsigned long *flags) {
  for (size_t i = 0; i < sizeof flag_words / sizeof *flag_words; i++)
    if (strcmp(word, flag_words[i].word) == 0) return *flags = (*flags & ~flag_words[i].clear) | flag_words[i].set, true;
  return false;
}

/* mount(8) gives the options of a mount again where it changes its flags. */
static bool is_of_remount(struct supervisor *s, const char *word) {
  if (strcmp(word, "remount") == 0) return s->remounts = true;
  return s->remounts && (begins(word, "user_id=") || begins(word, "group_id="));
}

static bool take_option(struct supervisor *s, const char *word) {
  if (apply_flag(word, &s->flags)) return append(s->options, word);
  if (takes_way(s, word) || is_of_remount(s, word)) return true;
  if (begins(word, "profile=")) return take_profile(s, word + strlen("profile="));
  if (begins(word, "size=")) return take_size(s, word + strlen("size="));
  if (begins(word, "watchdog=")) return take_watchdog(s, word + strlen("watchdog="));
  if (strcmp(word, "default_permissions") == 0 || is_for_others(word)) return true;
  if (strcmp(word, "allow_other") == 0 || is_max_read(word)) return append(s->data, word) && append(s->options, word);
  if (!s->sloppy) say_unknown(word);
  return s->sloppy;
}

static bool take_options(struct supervisor *s, char *words) {
  for (char *word = strtok(words, ","); word; word = strtok(NULL, ","))
    if (!take_option(s, word)) return false;
  return true;
}

bool is_helper(const char *name) {
  return strcmp(basename(name), "mount.fuse.fusekeep") == 0;
}

int print_help(void) {
  static const char help[] =
    "usage: fusekeep-mount [-df] [-o OPTIONS] STORE MOUNTPOINT\n"
    "       fusekeep-mount --status [--json] [STORE | MOUNTPOINT]\n"
    "       fusekeep-mount --server | --restart STORE\n"
    "       fusekeep-mount --backup COPY [--replace] STORE\n"
    "       fusekeep-mount --help | --version\n"
    "\n"
    "Mounts the store in the file STORE on the directory MOUNTPOINT, and keeps the mount alive when its server dies.\n"
    "  -d              write a line for each request and each answer to standard error; implies -f\n"
    "  -f              stay in the foreground\n"
    "  -o OPTIONS      mount options, with commas between them\n"
    "  --status        print the state of a mount, or of all mounts of this user; with --json as JSON\n"
    "  --server STORE  print the process number of the server of a mounted store\n"
    "  --restart STORE replace the server by one of the program that is installed now; calls wait meanwhile\n"
    "  --backup COPY STORE\n"
    "                  copy a store, mounted or not, as of one commit; with --replace over a file that is there\n"
    "  -h, --help      print this\n"
    "  -V, --version   print the version, and the digest of the program's sources\n"
    "\n"
    "Mount options:\n"
    "  ro, rw          the mount is read-only, or isn't\n"
    "  remount         change these flags of a mount that is there\n"
    "  suid, nosuid    set-user-ID bits count, or don't; only root may give suid\n"
    "  dev, nodev      device files are devices, or aren't; only root may give dev\n"
    "  exec, noexec    files can be executed, or can't\n"
    "  async, sync, dirsync\n"
    "                  whether writes are synchronous, as in mount(8)\n"
    "  atime, noatime, diratime, nodiratime, relatime, norelatime, strictatime\n"
    "                  as in mount(8)\n"
    "  allow_other     all users may access the files, as owners and modes permit\n"
    "  max_read=N      as in mount.fuse(8)\n"
    "  nonempty        the mountpoint may have entries, which the mount hides\n"
    "  profile=P       a new store is of the profile plain or everyday (everyday)\n"
    "  size=N          a new everyday store has room for N bytes, or for N K, M, G or T (most of the free space)\n"
    "  wary            the servers suppose less of the disk, and each commit syncs twice\n"
    "  groups, nogroups\n"
    "                  requests that wait together are committed together, or aren't (groups)\n"
    "  ordered         a cut of power loses at most the last five seconds, but nothing before an fsync(2) (this is the default)\n"
    "  durable         each commit is on the disk before its requests are answered; so it is with sync and dirsync, and of a plain store\n"
    "  volatile        nothing is flushed: a cut of power or a crash of the system may lose or damage the whole store\n"
    "  watchdog=N      a server that does nothing for N seconds while there is work is killed (it isn't)\n"
    "  default_permissions\n"
    "                  always on, given or not\n"
    "  defaults, auto, noauto, nofail, _netdev, user, user=.., nouser, users, owner, group, comment=.., x-.., X-..\n"
    "                  for other programs, and ignored\n"
    "\n"
    "fusekeep-mount(8) says more.\n";
  return fputs(help, stdout) >= 0 && fflush(stdout) == 0 ? 0 : FAILED;
}

int print_version(void) {
  return puts("fusekeep-mount " VERSION ", sources " SOURCES) >= 0 && fflush(stdout) == 0 ? 0 : FAILED;
}

static const struct option long_words[] = {
  {"help", no_argument, NULL, 'h'},
  {"version", no_argument, NULL, 'V'},
  {"status", no_argument, NULL, PRINTS_STATUS},
  {"json", no_argument, NULL, 'j'},
  {"server", no_argument, NULL, PRINTS_SERVER},
  {"restart", no_argument, NULL, RESTARTS},
  {"backup", required_argument, NULL, BACKS_UP},
  {"replace", no_argument, NULL, 'r'},
  {0},
};

static const struct option no_words[] = {{0}};

/* The command of an option, or MOUNTS for none. */
static int command_of(int letter) {
  return letter == 'h' ? PRINTS_HELP : letter == 'V' ? PRINTS_VERSION : letter > MOUNTS && letter <= BACKS_UP ? letter : MOUNTS;
}

/* Takes an option of a line that mounts nothing. The second of two commands is none. */
static bool takes_command(struct supervisor *s, int letter) {
  if (letter == 'j') return s->as_json = true;
  if (letter == 'r') return s->replaces = true;
  if (command_of(letter) == MOUNTS || s->command != MOUNTS) return false;
  if (letter == BACKS_UP) s->copy = optarg;
  s->command = command_of(letter);
  return true;
}

/* Takes an option of a mount. The `-f` of mount(8) means to do all but the mount. */
static bool takes_letter(struct supervisor *s, int letter, bool by_mount) {
  switch (letter) {
  case 'f': *(by_mount ? &s->fake : &s->foreground) = true; break;
  case 'd': s->shows = s->foreground = true; break;
  case 's': s->sloppy = true; break;
  case 'n':
  case 'v': break;
  case 'o': return take_options(s, optarg);
  default: return false;
  }
  return true;
}

/* With synchronous writes or directories each change is to be on the disk when its call returns. */
static void choose_way(struct supervisor *s) {
  if (s->way == ORDERED && s->flags & (MS_SYNCHRONOUS | MS_DIRSYNC)) s->way = DURABLE;
}

static bool say_usage(bool by_mount) {
  say("usage: %s", by_mount ? "STORE MOUNTPOINT [-sfnv] [-o OPTIONS]"
                            : "[-df] [-o OPTIONS] STORE MOUNTPOINT; fusekeep-mount --help has more");
  return false;
}

/* Whether so many operands are there as the command takes. */
static bool has_operands(const struct supervisor *s, int count) {
  if (s->as_json && s->command != PRINTS_STATUS) return false;
  if (s->replaces && s->command != BACKS_UP) return false;
  switch (s->command) {
  case MOUNTS: return count == 2;
  case PRINTS_SERVER:
  case RESTARTS:
  case BACKS_UP: return count == 1;
  case PRINTS_STATUS: return count <= 1;
  default: return count == 0;
  }
}

/* mount(8) gives the options after the operands. */
bool read_arguments(struct supervisor *s, int argc, char **argv) {
  bool by_mount = is_helper(argv[0]), mounts = false;
  unsetenv("POSIXLY_CORRECT");
  opterr = 0;
  for (int letter; (letter = getopt_long(argc, argv, by_mount ? "sfnvo:" : "hVdfo:", by_mount ? no_words : long_words, NULL)) != -1;) {
    if (letter == '?') return say("%s isn't known, or lacks its word", argv[optind - 1]), say_usage(by_mount);
    if (takes_command(s, letter)) continue;
    if (command_of(letter) != MOUNTS) return say_usage(by_mount);
    if (!takes_letter(s, letter, by_mount)) return false;
    mounts = true;
  }
  choose_way(s);
  bool is_whole = has_operands(s, argc - optind) && (s->command == MOUNTS || !mounts);
  return is_whole ? fits_profile(s) : say_usage(by_mount);
}
