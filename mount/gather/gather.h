/* What the files of the library share that fusekeep-mount preloads into a server. */
#ifndef GATHER_H
#define GATHER_H
#include "report.h"
#include "text.h"
#include <stdbool.h>
#include <stddef.h>
#include <sys/types.h>

/* The environment of an engine: STORE the path of the one store that it may open, LOCKED the descriptors of its files that fusekeep-mount
 * has locked: of the store, of its log and, where it has one, of its contents; of a server, GROUPS where its reads gather, ORDERED where
 * flushes of the log may be put off, and LINES the descriptor for a line for each message. Of the first server, DEVICE the socket over
 * which it gets the device, and VOLATILE where it flushes nothing from then on. */
#define STORE_VARIABLE "FUSEKEEP_STORE"
#define GROUPS_VARIABLE "FUSEKEEP_GROUPS"
#define ORDERED_VARIABLE "FUSEKEEP_ORDERED"
#define LINES_VARIABLE "FUSEKEEP_LINES"
#define LOCKED_VARIABLE "FUSEKEEP_LOCKED"
#define DEVICE_VARIABLE "FUSEKEEP_DEVICE"
#define VOLATILE_VARIABLE "FUSEKEEP_VOLATILE"

enum { NOTIFY_RESEND = 7 }; /* of newer headers of the kernel */

enum { HEADER_SIZE = 32 }; /* bytes of the header of a log */

/* work.c */

/* Milliseconds of the monotonic clock. */
uint64_t milliseconds(void);

/* An id without bit 63, which a request has that is sent again. */
uint64_t plain_id(uint64_t unique);

/* The memory that fusekeep-mount reads. Without it, memory of this process. */
struct report *report(void);

/* Says that a turn has these messages, whole ones, which the server gets now. Their bytes stay there until the next turn. */
void begin_turn(const char *messages, size_t size);

/* Says that the server has these bytes, up to here. */
void note_given(const char *end);

/* Says that the server has done all that it got. */
void end_turn(void);

/* Says that an answer or a notice was written, and whether the kernel took it. */
void note_answer(const char *answer, size_t size, bool is_taken);

/* Says that the server writes what may commit the requests that it has. */
void note_commit(void);

/* Answers a request that isn't to be handed on, and returns whether it is one. */
bool refuse_request(const char *message, size_t size);

/* The opcode of the request of this turn that this answers; 0 for none. */
uint32_t opcode_of_answer(const char *answer, size_t size);

/* device.c */

/* The socket over which the device is to come; below 0 where none is, or where it has come. */
int socket_of_device(void);

/* Whether the device is still to come: the engine begins a mount. */
bool awaits_device(void);

/* Says that the mount has begun, and waits for the device, which takes the place of the standard input and output. */
void take_device(void);

/* Whether the mount is volatile, and has begun. */
bool ignores_flushes(void);

/* ordered.c */

/* Whether flushes of the log may be put off. */
bool is_ordered(void);

/* The log: it was opened; it is cut; whether a file is it; whether one is open; it is closed. */
void open_log(int file);
void cut_log(void);
bool is_log(int file);
bool has_log(void);
void close_log(void);

/* Flushes the log, by this system call. The process ends where that fails and a flush was owed. */
int flush_log(long call);

/* Flushes the log as the server asks for, or owes it. */
int sync_log(long call);

/* Makes the flush that is owed, if one is; before an answer is written that promises it. */
void pay(void);
void pay_for_answer(const char *answer, size_t size);

/* Waits for a message of the device, and makes a flush that is due before one is there. */
void pay_in_time(int device);

/* zeros.c */

/* The log was opened or cut, or a write or a flush failed, so that nothing is known of it. */
void begin_zeros(void);

/* The server writes to the log. False, with an error, where a flush had to be made before and failed. */
bool note_write(int log, const void *from, size_t size, off_t at);

/* Whether these bytes are zeros for a place where the log has zeros. */
bool changes_nothing(const void *from, size_t size, off_t at);

/* The same, for where the last commit ends. */
void note_end(const void *from, size_t size, off_t at);

/* Whether the flush that the server asks for now may be put off; whether anything was written since the last one that was made. */
bool may_put_off(void);
bool has_unflushed(void);

/* Say that the log was flushed; and that the server has asked for it, and whether it was made. */
void note_flushed(void);
void note_asked(bool is_made);

/* locks.c */

/* Whether fusekeep-mount has a data file locked. Another one isn't opened. */
bool has_held_data(void);

/* hold.c */

/* Whether requests of this opcode bring content. */
bool takes_room(uint32_t opcode);

/* Whether a request isn't given out, since there is no room for it. */
bool keep_back(const char *message, size_t size);

/* show.c */

/* Whether lines are written. */
bool shows(void);

/* Write a line for a request that was read, or for an answer or a notice that was written, whose write(2) gave this error, or 0. */
void show_request(const char *message, size_t size);
void show_answer(const char *answer, size_t size, int error);

#endif
