/* What an operator asks of a mount: the socket beside its store, what is done there, and what is counted for it. */
#ifndef OPERATIONS_H
#define OPERATIONS_H
#include <limits.h>
#include <stdbool.h>
#include <stddef.h>
#include <stdint.h>
#include <sys/types.h>
#include <time.h>

struct supervisor;

#define CONTROL_SUFFIX "-control"
#define ENDING_MOUNT "the mount ends"              /* the reason that such a mount gives */
#define ORDERED_WORD "ordered"                     /* the durability of a mount whose flushes may wait */

enum { REQUEST_SIZE = 32, ANSWER_SIZE = 1 << 16 };             /* bytes */
enum { MOST_CLIENTS = 8, MOST_RESTARTS = 1024 };
enum { COPIED_STORE, COPIED_LOG, COPIED_DATA, MOST_FILES }; /* to which a store is copied */

/* A process that is connected to the socket, and what it waits for. */
struct client {
  int socket;                                      /* -1 for none */
  long long until;                                 /* when its request must be there, in milliseconds of the monotonic clock */
  char request[REQUEST_SIZE];
  size_t length;
  int files[MOST_FILES], count;                    /* descriptors that came with the request */
};

/* The socket. `events` is the one descriptor that the supervision watches. */
struct control {
  bool is_open;
  int events, listener, timer;
  dev_t device;                                    /* of the socket's file */
  ino_t inode;
  struct client clients[MOST_CLIENTS];
};

/* What is done for a client that restarts the server or copies the store. */
struct work {
  enum step {
    NO_STEP,
    ENDS,                                          /* the server was asked to end */
    STARTS,                                        /* the next one, of the new program, is to serve */
    STOPS,                                         /* the server was sent SIGSTOP */
    COPIES                                         /* no server runs while the files are copied */
  } step;
  struct client *client;                           /* NULL once it has left */
  long long since;                                 /* milliseconds of the monotonic clock */
  int old_engine;                                  /* the program before */
  int files[MOST_FILES];                           /* where the store's files are copied to */
  pid_t copier;                                    /* 0 for none */
  bool is_torn;                                    /* a server ran during the copy */
};

/* What the mount has seen since it began. */
struct history {
  struct timespec mounted;                         /* of the real clock */
  unsigned long long servers, deaths, restarts;
  long long longest, times[MOST_RESTARTS];         /* milliseconds of restarts, the last ones */
  bool has_connection;
  unsigned connection;                             /* the number of the mount in /sys/fs/fuse/connections */
};

/* Bytes of an answer. */
struct text {
  size_t length;
  char bytes[ANSWER_SIZE];
};

/* control.c */

/* Listens beside the store, unless the socket is there. Where that fails the mount goes on without it, and a line says so. */
void keep_control(struct supervisor *s);

/* Removes the socket. */
void close_control(struct supervisor *s);

/* Takes what came in, and what is due. It never waits. */
void serve_control(struct supervisor *s);

/* Sends the answer to a client, and closes its connection. */
void answer_client(struct supervisor *s, struct client *client, const struct text *answer);

/* Answers that a request can't be done. */
__attribute__((format(printf, 3, 4))) void refuse_client(struct supervisor *s, struct client *client, const char *form, ...);

/* work.c */

/* Begins the work that a client asks for. False where its request is another one. */
bool begin_work(struct supervisor *s, struct client *client);

/* Whether something is under way, and what is due of it. */
bool is_working(const struct supervisor *s);
void go_on_working(struct supervisor *s);

/* A client closes its connection: its copy is given up, and a restart goes on. */
void client_left(struct supervisor *s, struct client *client);

/* Whether no server may run. */
bool is_at_rest(const struct supervisor *s);

/* Looks whether the server was stopped, or goes on. */
void look_at_stop(struct supervisor *s);

/* Whether the server ended for the work that is under way, which goes on then. Others die. */
bool ended_for_work(struct supervisor *s, int status);

/* Whether this child was the one that copies, which has ended so. */
bool has_copied(struct supervisor *s, pid_t child, int status);

/* restart.c */

/* Has the server of a mounted store replaced by one of the program that is installed now, and returns the exit status of this program. */
int restart_server(const char *operand);

/* copy.c */

/* Copies a file to another one, which is empty, by a reference to its blocks where the disk can do so. Returns whether it could, and in
 * `is_reference` how. */
bool copy_file(int from, int to, bool *is_reference);

/* backup.c */

/* Copies a store, and returns the exit status of this program. */
int back_up(struct supervisor *s, const char *copy, const char *store);

/* state.c */

/* Appends to an answer; what has no room is cut. */
__attribute__((format(printf, 2, 3))) void put(struct text *to, const char *form, ...);

/* Appends a line of a name and a value, in which bytes that aren't printed and the backslash are written as three octal digits. */
void put_value(struct text *to, const char *name, const char *value);

/* Appends the lines of the mount's state. */
void put_status(const struct supervisor *s, struct text *to);

/* Notes the milliseconds from a server's death until the next one served. */
void count_restart(struct supervisor *s, long long restart);

/* ask.c */

/* A mount that answers a client. */
struct answer {
  struct text text;
  pid_t supervisor;                                /* the process that answered */
};

/* Why a mount doesn't answer. */
enum silence { ANSWERED, NOT_MOUNTED, NOT_REACHED, NOT_TRUSTED, NO_ANSWER, REFUSED };

/* Asks the mount of a store, whose path is absolute, and waits for its answer so many milliseconds, or as long as it takes where they
 * are below 0. The descriptors go with the request. */
enum silence ask(const char *store, const char *request, const int *files, int count, int patience, struct answer *answer);

/* Says why there is no answer. */
void say_silence(enum silence silence, const char *store, const struct answer *answer);

/* The value of a line of the answer, or NULL. The caller frees it. */
char *value_of(const struct answer *answer, const char *name);

/* The number of a line of the answer; -1 where there is none. */
long long number_of(const struct answer *answer, const char *name);

/* status.c */

/* Prints the state of a mount, which is named by its store or its mountpoint, or of all mounts of this user where NULL is given, and
 * returns the exit status of this program. */
int print_status(const char *operand, bool as_json);

/* json.c */

/* Prints a string of JSON. Bytes that are no UTF-8 become code points from U+DC80 on, as in Python's file names. */
void print_json_text(const char *text);

/* Prints a number of JSON, or null where the text is none. */
void print_json_number(const char *text);

#endif
