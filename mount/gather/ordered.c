/* Flushes in the order of a file system. What a server has written is in the kernel's memory, so that a killed server loses nothing. A
 * flush of the log that may be put off (zeros.c) is owed, and made
 *
 * - before the store's file is written, into which the log is copied, and before the log begins again;
 * - before the data file is written below its end, or is cut;
 * - before the answer of FSYNC or FSYNCDIR is written;
 * - five seconds after the first that is owed, while the server waits for a message or before it takes one;
 * - when the log is closed.
 *
 * So a cut of power leaves the store as after some commit, and not before the last fsync(2) that returned. All other flushes are made when
 * the server asks for them, those of the store's file too.
 *
 * A plain store serves no FSYNC, so of one nothing is put off: its answer of INIT has no READDIRPLUS. The kernel sends no more FSYNC to a
 * server that has answered one by ENOSYS, so from then on nothing is put off either.
 *
 * So the order is contents, log, store. A flush of the data file is never put off: the server asks for it before it writes the commit
 * that lists the contents, and what it writes of that commit may reach the disk at any time. A commit may free space, which the server then
 * writes again. If a cut of power loses that commit, the old contents must still be there. So the commit is flushed before anything is
 * written below the end of the file, and before the file is cut. No commit that a cut of power can leave has contents after the end.
 *
 * A flush that is owed was acknowledged. If it fails, the server ends, and fusekeep-mount copies the log before the next one. */
#define _GNU_SOURCE
#include "gather.h"
#include <errno.h>
#include <linux/fuse.h>
#include <poll.h>
#include <stdio.h>
#include <stdlib.h>
#include <string.h>
#include <sys/syscall.h>
#include <unistd.h>

enum { ENDED_BY_LOSS = 74 }; /* EX_IOERR of sysexits.h */

static int log_file = -1;

bool is_ordered(void) {
  static int known = -1;
  if (known < 0) known = getenv(ORDERED_VARIABLE) != NULL;
  return known > 0;
}

void open_log(int file) {
  log_file = file;
  begin_zeros();
}

void cut_log(void) {
  begin_zeros();
  report()->acknowledged = 0;
}

bool is_log(int file) {
  return file >= 0 && file == log_file;
}

bool has_log(void) {
  return log_file >= 0;
}

/* Its last line is written as an engine writes it, so that a full disk is known by it. */
__attribute__((noreturn)) static void end_by_loss(int error) {
  const char *store = getenv(STORE_VARIABLE), *why = error == ENOSPC || error == EDQUOT ? "no room left" : strerror(error);
  dprintf(STDERR_FILENO, "a flush that was owed failed\n%s-wal: %s\n", store ? store : "", why);
  _exit(ENDED_BY_LOSS);
}

/* The kernel says once for each open file that what it wrote was lost. If this process is killed before it has noted that, fusekeep-mount
 * asks by its own. */
int flush_log(long call) {
  report()->counts.flushes++;
  report()->flushing = 1;
  int error = ignores_flushes() || syscall(call, log_file) == 0 ? 0 : errno;
  if (error != 0) report()->lost = (uint64_t)error;
  report()->flushing = 0;
  if (error == 0) {
    report()->owed = 0;
    note_flushed();
    return 0;
  }
  if (report()->owed != 0) end_by_loss(error);
  begin_zeros();
  errno = error;
  return -1;
}

/* The flush that was asked for is owed from now on, unless one is already. */
static void put_off(void) {
  if (!has_unflushed()) return;
  report()->put_off++;
  if (report()->owed == 0) report()->owed = milliseconds();
}

/* fsync(2) is what an opening calls, and is made. So is each flush of an engine that begins a mount. */
int sync_log(long call) {
  bool is_made = call != SYS_fdatasync || !is_ordered() || awaits_device() || report()->is_strict || !may_put_off();
  if (is_made && flush_log(call) != 0) return -1;
  if (!is_made) put_off();
  note_asked(is_made);
  return 0;
}

void pay(void) {
  if (is_ordered() && has_log() && report()->owed != 0) flush_log(SYS_fdatasync);
}

/* Whether an answer of INIT is one of an everyday store. */
static bool is_everyday(const char *answer, size_t size) {
  struct fuse_init_out body;
  size_t end = offsetof(struct fuse_init_out, flags) + sizeof body.flags;
  if (size < sizeof(struct fuse_out_header) + end) return false;
  memcpy(&body, answer + sizeof(struct fuse_out_header), end);
  return body.flags & FUSE_DO_READDIRPLUS;
}

/* Whether this answer says that FSYNC isn't served, or won't be. */
static bool ends_order(uint32_t opcode, const char *answer, size_t size) {
  struct fuse_out_header head;
  memcpy(&head, answer, sizeof head);
  if (opcode == FUSE_INIT) return head.error == 0 && !is_everyday(answer, size);
  return head.error == -ENOSYS;
}

void pay_for_answer(const char *answer, size_t size) {
  uint32_t opcode = opcode_of_answer(answer, size);
  if (opcode != FUSE_FSYNC && opcode != FUSE_FSYNCDIR && opcode != FUSE_INIT) return;
  pay();
  if (ends_order(opcode, answer, size)) report()->is_strict = 1;
}

void close_log(void) {
  pay();
  log_file = -1;
}

/* The milliseconds until a flush that is owed must be made. Below 0 where none is. */
static int pause_before_flush(void) {
  uint64_t owed = report()->owed, moment = milliseconds();
  if (!is_ordered() || !has_log() || owed == 0) return -1;
  return owed + OWED_TIME > moment && owed <= moment ? (int)(owed + OWED_TIME - moment) : 0;
}

void pay_in_time(int device) {
  struct pollfd input = {.fd = device, .events = POLLIN};
  for (int left = pause_before_flush(); left >= 0; left = pause_before_flush()) {
    if (left > 0 && poll(&input, 1, left) != 0) return;
    if (pause_before_flush() == 0) pay();
  }
}
