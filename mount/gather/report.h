/* What a server reports to fusekeep-mount, and what fusekeep-mount asks of the library in it: memory that fusekeep-mount makes, and that
 * the library of each server maps. A server may write anything into it. */
#ifndef REPORT_H
#define REPORT_H
#include <stdatomic.h>
#include <stdint.h>

/* The environment of a server: the descriptor of the memory. */
#define REPORT_VARIABLE "FUSEKEEP_REPORT"

enum { WORK_NAME_SIZE = 256 }; /* bytes of a name, with the zero at its end; a longer one is cut */
enum { GATHERED_MOST = 16 };   /* requests of a turn, which a server commits together */
enum { KEPT_BACK = 16 };       /* requests that need more room than there is */
enum { OWED_TIME = 5000 };     /* milliseconds after which a flush that is owed is made */

struct counts {
  _Atomic uint64_t requests; /* read from the device */
  _Atomic uint64_t answers;  /* that the kernel took */
  _Atomic uint64_t groups;   /* first reads of a turn, which gathers what waits */
  _Atomic uint64_t flushes;  /* calls of fsync(2) and fdatasync(2) */
};

struct report {
  /* Of one server. All is 0 when it starts. Times are milliseconds of the monotonic clock. */
  _Atomic uint64_t is_loaded; /* the library is there */
  _Atomic uint64_t notice;    /* when the server had asked for the pending requests, or had the device of a new mount; 0 before */
  struct counts counts;
  _Atomic uint64_t held;      /* requests of this turn that aren't answered */
  _Atomic uint64_t given;     /* requests of this turn */
  _Atomic uint64_t highest;   /* id among them */
  _Atomic uint64_t ends;      /* the server gets no more input: fusekeep-mount asks it to end */
  _Atomic uint64_t committed; /* the highest id of those held that a commit may have; 0 while there is none */
  _Atomic uint64_t not_taken; /* the highest id of an answer that the kernel didn't take; 0 for none */
  _Atomic uint64_t flushing;  /* a flush of the log has begun, and how it ended isn't noted */

  _Atomic uint64_t removals;  /* requests given out that may give room back, while the disk is full */
  _Atomic uint64_t writes;    /* answered requests that bring content */

  /* The first of those that are held. */
  _Atomic uint64_t since;     /* when it was given out, or the one before it was answered */
  _Atomic uint64_t id, node;  /* the id without bit 63 */
  _Atomic uint32_t opcode, name_length;
  char name[WORK_NAME_SIZE];  /* empty where it has none */

  /* What fusekeep-mount asks, and what stays from one server to the next. */
  _Atomic uint64_t is_single; /* a turn has one request, until one above `beyond` that is no resend was answered */
  _Atomic uint64_t beyond;
  _Atomic uint64_t is_full;   /* requests that bring content aren't given out, and a turn has one request */
  _Atomic uint64_t kept_back[KEPT_BACK]; /* nor are those of these ids; 0 after the last one */
  _Atomic uint64_t is_strict; /* no flush of the log is put off any more */
  _Atomic uint64_t put_off;   /* flushes of the log that were put off */
  _Atomic uint64_t owed;      /* when the first of those was put off that are owed; 0 where none is */
  _Atomic uint64_t acknowledged; /* where the last commit ends for which a flush was reported to a server; 0 where the log has none */
  _Atomic uint64_t lost;      /* the error of a flush of the log, whose bytes may be in memory alone; 0 for none */
  _Atomic uint64_t refused;   /* the id of a request that the library answers EIO, or drops where it has no answer; 0 for none */
};

#endif
