/* The state of a mount, and what the files of fusekeep-mount share. */
#ifndef SUPERVISOR_H
#define SUPERVISOR_H
#include "gather/report.h"
#include "gather/text.h"
#include "operations.h"
#include <limits.h>
#include <signal.h>
#include <stdbool.h>
#include <stddef.h>
#include <stdio.h>
#include <sys/stat.h>
#include <sys/types.h>
#include <time.h>
#include <unistd.h>

enum { FAILED = 1, USAGE = 2, CANNOT_RUN = 127 }; /* exit statuses */
enum { OPTIONS_SIZE = 1024, LINE_SIZE = 512, PATH_SIZE = PATH_MAX + 16 }; /* bytes; a path has room for a suffix */
enum { SHORT_LIFE = 1000, FULL_PAUSE = 5000 };  /* milliseconds */
enum { MOST_FAILED_LIVES = 10 };
enum { FIRST_OTHER = STDERR_FILENO + 1 };       /* descriptor */

/* What the names of the files beside a store have after that of the store. */
#define LOCK_SUFFIX "-mount"
#define LOG_SUFFIX "-wal"
#define DATA_SUFFIX "-data"
#define DEATHS_SUFFIX "-mount.log"
#define RESERVE_SUFFIX "-reserve"

/* A server's death, until the next server asks for the pending requests. */
struct death {
  bool is_open;                                    /* it isn't in the list yet */
  struct timespec at;                              /* of the real clock */
  long long ended, lived;                          /* milliseconds, of the monotonic clock */
  int status;                                      /* of waitpid(2) */
  char line[LINE_SIZE];                            /* the last one that the server wrote, and what follows from the death */
};

/* The request at which servers end by themselves. */
struct culprit {
  unsigned long long id;                           /* 0 for none */
  int deaths;                                      /* in a row */
};

/* What servers did, in all. */
struct totals {
  unsigned long long requests, answers, groups, flushes;
};

/* What a server was last seen to do. */
struct sight {
  unsigned long long requests, answers;
  long long since;                                 /* milliseconds of the monotonic clock */
  bool hangs;                                      /* it was killed for that */
};

/* What another process has done to the files of a mounted store. LINKED, MOVED and REMOVED are the store's file or its data file. */
enum trouble { NO_TROUBLE, LINKED, MOVED, REMOVED, LOG_REMOVED, OTHER_LOG };

struct supervisor {
  enum { MOUNTS, PRINTS_HELP, PRINTS_VERSION, PRINTS_SERVER, PRINTS_STATUS, RESTARTS, BACKS_UP } command;
  const char *copy;                                /* the name of a backup */
  bool as_json, replaces;                          /* the state is printed so; the backup may be there already */
  bool foreground, fake, sloppy, remounts;
  bool wary;                                       /* the servers suppose nothing of torn writes */
  enum { ORDERED, DURABLE, VOLATILE } way;         /* the servers flush as a file system does, or each commit, or nothing */
  enum { BY_DEFAULT, GROUPS, NO_GROUPS } groups;   /* whether a server gets messages that wait together */
  bool shows;                                      /* a line is written for each message */
  const char *profile;                             /* of a new store; NULL where nothing is said */
  unsigned long long size;                         /* bytes for which it has room */
  bool has_size, is_new;                           /* there is a size; the store is to be made */
  const char *engine;                              /* its path */
  int engine_file;                                 /* its descriptor, by which it is run */
  char store[PATH_MAX], mountpoint[PATH_MAX];
  bool allows_entries;                             /* the mountpoint need not be empty */
  int place, parent;                               /* descriptors: of the mountpoint until it is mounted on, and of its parent */
  int mount_id;                                    /* in the table of mounts */
  unsigned long flags;                             /* of mount(2) */
  char data[OPTIONS_SIZE], options[OPTIONS_SIZE];  /* for mount(2) beside the flags; for fusermount3 */
  uid_t owner;                                     /* of the store's file, and its group; servers have them */
  gid_t group;
  int lock, device, signals, readiness;            /* descriptors; the last one reports that the mount is ready */
  int folder;                                      /* descriptor of the store's folder */
  int store_file, log_file, watch;                 /* descriptors: of the files, which are locked, and of inotify(7) */
  int data_file;                                   /* descriptor of the data file, which is locked too; -1 where there is none */
  int library, report_file;                        /* descriptors: of what engines preload, and of the memory of `report` */
  int own_end, engine_end;                         /* descriptors of the socket over which the first server gets the device; or below 0 */
  struct report *report;                           /* of the server that runs, or ran last */
  struct totals totals;                            /* of the servers before it */
  sigset_t mask;                                   /* with which this process was called */
  pid_t server, probe, unmounter, flusher;         /* 0 for none */
  uint64_t paid;                                   /* how many flushes were put off before the last one that was made here */
  long long next_flush;                            /* before that moment none is tried here */
  bool has_hole;                                   /* a commit of the log was acknowledged, and is lost */
  bool ready, stop_requested, is_unmounted;
  bool made_store, made_lock, made_log, made_data; /* by this process */
  bool has_store, has_lock;                        /* this process has the file locked */
  bool is_full;                                    /* the disk has no room: calls that take some wait */
  bool has_reserve, gave_reserve;                  /* the reserve is there; it was given up */
  long long store_room, kept_room;                 /* bytes: what the reserve gave the store; what was there when a request needed more */
  int tries;                                       /* so often calls may go on since the last removal */
  bool tries_again;
  unsigned long long failed_id;                    /* of the last request at which a server ended on a full disk */
  enum trouble trouble;
  const char *troubled;                            /* how the name of that file ends */
  long long next_try, stop_asked;                  /* when a full disk may have room again; when the mount was to end */
  long long started, next_start;                   /* milliseconds of the monotonic clock */
  int failed_lives, idle_lives, last_status;       /* in a row: that failed, that did nothing; of waitpid(2) */
  struct culprit culprit;
  unsigned long long committed;                    /* no request up to this id may be refused: a commit may have it */
  long long watchdog;                              /* milliseconds that a server may do nothing; 0 for any time */
  int hangs;                                       /* in a row, that the watchdog ended */
  struct sight sight;
  struct death death;                              /* the last one */
  struct control control;
  struct history history;
  struct work work;
};

/* fusekeep-mount.c */

/* Writes one line to standard error or, once the mount is in the background, to the system's log. Where that can't be done at once the line
 * of a mount goes into the list of deaths. `errno` stays. */
__attribute__((format(printf, 1, 2))) void say(const char *form, ...);

/* Writes the error of the last system call, and returns false. */
bool refused(const char *what);

/* Milliseconds of the monotonic clock. */
long long now(void);

/* log.c */

/* Gives a line to the system's log. False where there is none, or where it takes no line at once. */
bool log_line(const char *line);

/* arguments.c, engine.c, preload.c, server.c */

/* Reads the options, and returns whether the command line is valid. Its operands stand at `optind`. */
bool read_arguments(struct supervisor *s, int argc, char **argv);

/* Whether this program runs as mount(8)'s helper. */
bool is_helper(const char *name);

/* Print how this program is used, or its version, and return its exit status. */
int print_help(void);
int print_version(void);

/* Sets and clears what an option says of the flags of mount(2). False where it says nothing. */
bool apply_flag(const char *word, unsigned long *flags);

/* Changes the flags of a mount to those of the command line, and returns this program's exit status. */
int remount(const struct supervisor *s, const char *store, const char *mountpoint);

/* Finds and opens the engine: the one that FUSEKEEP names, else the one in the folder of this program, else the one on PATH, which
 * mount(8) doesn't pass on. */
bool find_engine(struct supervisor *s);

/* Opens the engine again, so that the next server is of the program that now lies at its path. Where that is none, the old one stays. */
bool reopen_engine(struct supervisor *s);

/* A path that begins at the folder of this program. The next call overwrites it. NULL where that folder isn't known. */
const char *near_program(const char *name);

/* Opens the library that engines preload. */
bool find_library(struct supervisor *s);

/* Whether the engine that began the mount had loaded it. */
bool has_library(const struct supervisor *s);

/* Preloads the library, in a child that becomes an engine. A server writes lines to this descriptor, unless it is below 0. */
void preload_library(const struct supervisor *s, int lines);

/* Sets a variable to the number of a descriptor, which stays open in a child that becomes an engine. */
void pass_descriptor(const char *variable, int file);

/* Prints the process number of the server of a mounted store, and returns the exit status of this program. */
int print_server(const char *operand);


/* children.c */

/* A child that dies with this process. It has a process group of its own, so that a terminal's signals reach this process alone.
 * Signals stay blocked until the child has joined its group. */
pid_t fork_child(void);

/* Restores the signals with which this process was called, before another program is executed. */
void give_back_signals(const struct supervisor *s);

/* Runs `fusekeep serve`. With `--fresh` it begins a mount, and a new store gets its profile; where there is a socket for the device it is
 * the first server. With `--resume` it is a later one, over the device. */
pid_t start_engine(const struct supervisor *s, const char *mode, int device);

/* privileges.c */

/* Takes all privileges from a child that becomes an engine, and makes it a process of the store's owner. */
bool drop_privileges(const struct supervisor *s);

/* Whether the owner of the store may use its file. Notes the owner. */
bool suits_owner(struct supervisor *s, int file, const char *store);

/* Says so where the kernel can't confine engines to the store's files. */
void say_unconfined(const struct supervisor *s);

/* Whether the owner of the store may look into its folder. */
bool owner_may_enter(const struct supervisor *s);

/* volatile.c */

/* From here on this process flushes nothing: fsync(2) and fdatasync(2) return 0. */
bool ignore_flushes(void);

/* The last line that an engine wrote to its standard error, which is the lock's file. A line that begins with the store's path is the
 * cause of the one before, and follows it here. The next call overwrites it. */
const char *last_line(const struct supervisor *s);

/* How an engine ended, and the last line that it wrote. The next call overwrites it. */
const char *ending(const struct supervisor *s, int status);

/* folder.c */

/* The real path of a file that may be missing. It takes PATH_MAX bytes. */
bool find_store(const char *file, char *path);

/* The path of a file beside the store, whose name ends so. The next call overwrites it. */
const char *beside(const struct supervisor *s, const char *suffix);

/* Its name in the folder. The next call overwrites it. */
const char *name_beside(const struct supervisor *s, const char *suffix);

/* The folder of the store. The next call overwrites it. */
const char *folder_of(const struct supervisor *s);

/* Says why a file can't be written, by the error of the last call, and returns false. */
bool unwritable(const char *path);

/* Opens the store's folder and its file. One that is missing is made; an empty file is no store yet. False, with a line, where it can't
 * be opened, or where it isn't safe to use. */
bool open_store(struct supervisor *s, const char *store);

/* Opens a file beside the store, with O_CREAT one that is missing too, and says in `made` whether this call made it (NULL where nobody
 * asks). Only its owner may open it. It is -1 for anything else than a regular file of the store's owner or of this user. */
int open_beside(const struct supervisor *s, const char *suffix, int flags, bool *made);

/* Whether an open file is the one of this name beside the store. */
bool is_named(const struct supervisor *s, int file, const char *suffix);

/* Removes a file beside the store. */
void remove_beside(const struct supervisor *s, const char *suffix);

/* Whether an open file has no bytes. */
bool has_no_bytes(int file);

/* late.c */

/* The milliseconds until this process must look for a flush that the server owes; below 0 for any time. */
int pause_before_flush(const struct supervisor *s);

/* Makes the flush that a server owes and hasn't made in time. */
void flush_late(struct supervisor *s);

/* Whether a child that ended was the one that flushes. */
bool has_flushed(struct supervisor *s, pid_t child, int status);

/* Learns how the flush ended in which a server was killed. */
void flush_for_killed(struct supervisor *s);

/* Makes the flush that is owed when the mount ends. */
void flush_last(struct supervisor *s);

/* frames.c */

/* The place after the last commit of a log; 0 where it has none. */
off_t end_of_commits(int log);

/* locks.c */

/* Locks the bytes of an open database or of its log that SQLite and servers lock. Waits for a second. */
bool lock_bytes(int file);

/* Locks the store. Says who has it locked otherwise. */
bool lock_store(struct supervisor *s, const char *store);

/* Takes the lock's file, in which the engines write their standard error. So a server that outlives this process holds it. */
bool take_lock(struct supervisor *s);

/* Hands the locked files on, in a child that becomes an engine. */
void pass_locks(const struct supervisor *s);

/* store.c */

/* Opens the store's file and takes its locks. */
bool hold_store(struct supervisor *s, const char *store);

/* Begins a mount in the store. Returns this program's exit status; unless it is 0, the engine's line was written. Unless the mount is one
 * in a copy, the engine is the first server then, and waits for the device; one of others may have ended. */
int begin_in_store(struct supervisor *s);

/* Gives the first server the device. */
void give_device(struct supervisor *s);

/* Ends the first server where the store isn't mounted. */
void dismiss_server(struct supervisor *s);

/* Removes the files that a refused mount has made. */
void leave_no_trace(const struct supervisor *s);

/* data.c */

/* Opens the data file and locks it, unless this store can have none. One that is missing is made. `data_file` stays -1 where that
 * can't be done, or where another file has the name: most stores do without. */
void open_data(struct supervisor *s);

/* Removes a data file that was made here and that the engine has left empty: the store has none. */
void drop_data(struct supervisor *s);

/* Whether a store that was just made may lie beside this data file. Says so where it is another store's. */
bool suits_data(const struct supervisor *s);

/* Says why an engine couldn't open the data file, if its last line names that. */
void explain_data(const struct supervisor *s);

/* Whether a file is there that begins as a data file does. */
bool has_contents(const char *path);

/* profile.c */

/* Read the words of the options profile= and size=, and return whether they are valid; together they are if `fits_profile`. */
bool take_profile(struct supervisor *s, const char *word);
bool take_size(struct supervisor *s, const char *word);
bool fits_profile(const struct supervisor *s);

/* Sets what the options leave open: a new store is everyday, with a capacity that leaves room on its disk. */
void choose_profile(struct supervisor *s);

/* The words with which an engine makes a new store, six at most; their number. */
size_t words_of_store(const struct supervisor *s, const char **words);

/* room.c */

/* Whether the store's disk is full, or the last engine found it so. */
bool lacks_room(const struct supervisor *s);

/* Says why an engine could not write, if the disk is full or the store's folder is read-only. */
void explain(const struct supervisor *s);

/* Takes room before a server begins to serve: for the log, which has it until a server ends in order, or on a full disk for the store. */
void share_room(struct supervisor *s);

/* Makes the reserve where it is missing and the disk isn't full. */
void keep_reserve(struct supervisor *s);

/* From here on the disk is full: the next server gets no request that takes room. The reserve is removed, so that its room serves the
 * store. False where there was none. */
bool use_reserve(struct supervisor *s);

/* Whether requests waited for room, and the next server may get them. */
bool look_for_room(struct supervisor *s);

/* Whether requests may wait for room. */
bool waits_for_room(const struct supervisor *s);

/* Whether a mount that was to end has only calls left that wait for room. */
bool is_stuck(const struct supervisor *s);

/* Makes the reserve of what room there is, for the next mount. */
void leave_reserve(struct supervisor *s);

/* report.c */

/* Makes the memory in which servers report. */
bool make_report(struct supervisor *s);

/* A server begins or has ended. Its counts go into the totals. */
void clear_report(struct supervisor *s);

/* The counts of all servers. */
struct totals totals_of(const struct supervisor *s);

/* The request that the server works on, or worked on when it ended, as text. The next call overwrites it. */
const char *name_of_work(const struct supervisor *s);

/* life.c */

/* When the server had asked for the pending requests, in milliseconds of the monotonic clock; 0 if it hasn't. */
long long asked_at(const struct supervisor *s);

/* Whether a process was ended by a signal that its own instructions don't raise. */
bool was_killed(int status);

/* Whether another process has the store locked, so that the server ended. */
bool was_locked_out(const struct supervisor *s, int status);

/* Counts the life of a server that ended so, and returns the milliseconds until the next one may start. */
long long count_life(struct supervisor *s, int status);

/* culprit.c */

/* A server ended. Notes the requests that it may have committed and hasn't answered. */
void note_commits(struct supervisor *s);

/* A server ended by itself. A request at which three in a row did is refused from now on. */
void blame_request(struct supervisor *s);

/* watchdog.c */

/* Reads the seconds of the option watchdog=, and returns whether they are valid. */
bool take_watchdog(struct supervisor *s, const char *word);

/* Ends a server that does nothing while there is work. */
void watch_server(struct supervisor *s);

/* The milliseconds until the server must be looked at for that; below 0 for any time. */
int pause_of_watchdog(const struct supervisor *s);

/* deaths.c */

/* Notes the server's death, which `write_death` writes. */
void note_death(struct supervisor *s, int status);

/* Adds to the line of the last death, after what is there. */
__attribute__((format(printf, 2, 3))) void add_to_death(struct supervisor *s, const char *form, ...);

/* Makes the list where it is missing, with room for lines on a disk that gets full. */
void begin_list(const struct supervisor *s);

/* Writes the last death into the list, unless it is there, with the milliseconds from it until the next server asked for the
 * pending requests, or with a dash where none did (-1). */
void write_death(struct supervisor *s, long long restart);

/* Writes a line into the list that is no death. */
void list_line(const struct supervisor *s, const char *line);

/* holder.c */

/* Says which process serves a store that is mounted already, and where it is mounted. */
void say_holder(const struct supervisor *s);

/* Says which process holds the store without a mount. */
void say_user(const struct supervisor *s, const char *store);

/* Says that the store isn't mounted any more where it was, and which process still has the mount. */
void say_detached(const struct supervisor *s);

/* mounts.c */

/* What the table of mounts has of a mount of this program. The next one overwrites it. */
struct mounted {
  int id;
  unsigned minor;                                  /* of its device, which is the number of the connection */
  uid_t user;                                      /* who mounted it */
  char *place, *flags, *kind, *source;
};

/* The table of mounts of a process. */
struct table {
  FILE *file;
  char *line;
  size_t size;
};

bool open_table(struct table *table, pid_t process);
bool next_mount(struct table *table, struct mounted *found);
void close_table(struct table *table);

/* The id of the mount that has an open file, and the file's path, which takes PATH_MAX bytes. They ask no server. */
int mount_id_of(int file);
bool path_of(int file, char *path);

/* The first mountpoint of this store in the namespace of a process. False where there is none. */
bool find_place(const struct supervisor *s, pid_t process, char *place);

/* notify.c */

/* Sends a line to the service manager that started this program, if it waits for one. */
void notify_manager(const char *state);

/* mountpoint.c */

/* Finds and opens the mountpoint, which must be empty unless the options allow entries. */
bool find_mountpoint(struct supervisor *s, const char *mountpoint);

/* Notes which mount was made on the mountpoint. */
bool note_mount(struct supervisor *s);

/* In a child: makes the parent of the mountpoint its working directory, and closes all but the standard descriptors and the store's folder,
 * in which it may write lines. */
void enter_parent(const struct supervisor *s);

/* Opens the root of the mount from the parent of the mountpoint, and returns the name by which it was reached. NULL where the mount isn't
 * there any more, or another one lies over it. */
const char *open_root(const struct supervisor *s, int *root);

/* watch.c */

/* Watches the store's files; the data file alone, if the others are watched. */
void watch_store(struct supervisor *s);
void watch_data(const struct supervisor *s);

/* Looks at the files again, and says what has changed. The server whose log was removed is killed. */
void look_at_files(struct supervisor *s);

/* Whether a server may be started. A removed log is written anew first. */
bool can_start(struct supervisor *s);

/* Writes the log anew after a flush of it failed. Where it lacks a commit that was acknowledged it stays, and `has_hole` is set. */
bool replace_log(struct supervisor *s);

/* device.c */

/* Mounts the store, by mount(2) or by fusermount3. */
bool mount_store(struct supervisor *s);

/* Whether the connection has ended. */
bool has_ended(const struct supervisor *s);

/* Unmounts in a child, since servers must go on meanwhile. A mount in use is detached, and ends with its last user. Another file
 * system mounted in its place stays. */
pid_t start_unmounting(const struct supervisor *s);

#endif
