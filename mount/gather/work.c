/* What a server works on, as it reports it. */
#define _GNU_SOURCE
#include "gather.h"
#include <errno.h>
#include <linux/fuse.h>
#include <stdlib.h>
#include <string.h>
#include <sys/mman.h>
#include <sys/syscall.h>
#include <time.h>
#include <unistd.h>

static struct report own;
static struct report *shared = &own;

/* The messages of this turn that aren't done; up to where the server has them; and those that a commit may have. */
static const char *next, *stop, *given, *committed;

__attribute__((constructor)) static void map_report(void) {
  const char *number = getenv(REPORT_VARIABLE);
  if (!number) return;
  void *memory = mmap(NULL, sizeof own, PROT_READ | PROT_WRITE, MAP_SHARED, atoi(number), 0);
  if (memory == MAP_FAILED) return;
  shared = memory;
  shared->is_loaded = 1;
}

struct report *report(void) {
  return shared;
}

uint64_t plain_id(uint64_t unique) {
  return unique & ~(1ULL << 63);
}

uint64_t milliseconds(void) {
  struct timespec at;
  clock_gettime(CLOCK_MONOTONIC, &at);
  return (uint64_t)at.tv_sec * 1000 + (uint64_t)at.tv_nsec / 1000000;
}

static struct fuse_in_header head_of(const char *message) {
  struct fuse_in_header head;
  memcpy(&head, message, sizeof head);
  return head;
}

/* The name of a request, cut where it has no room. */
static void note_name(const char *message, const struct fuse_in_header *head) {
  int count;
  size_t at = sizeof *head + place_of_names(head->opcode, &count);
  size_t length = count > 0 && head->len > at ? strnlen(message + at, head->len - at) : 0;
  if (length >= WORK_NAME_SIZE) length = WORK_NAME_SIZE - 1;
  memcpy(shared->name, message + at, length);
  shared->name[length] = '\0';
  shared->name_length = (uint32_t)length;
}

/* Reports the first message that isn't done. */
static void note_first(void) {
  shared->since = milliseconds();
  if (next == stop) return;
  struct fuse_in_header head = head_of(next);
  shared->id = plain_id(head.unique);
  shared->node = head.nodeid;
  shared->opcode = head.opcode;
  note_name(next, &head);
}

void begin_turn(const char *messages, size_t size) {
  uint64_t count = 0, highest = 0;
  next = given = committed = messages;
  stop = messages + size;
  for (const char *at = next; at < stop; at += head_of(at).len, count++)
    if (plain_id(head_of(at).unique) > highest) highest = plain_id(head_of(at).unique);
  shared->highest = highest;
  shared->given = count;
  note_first();
  shared->held = count;
  shared->counts.groups++;
}

void note_given(const char *to) {
  given = to;
}

void end_turn(void) {
  next = stop = given = committed = NULL;
  shared->held = 0;
  shared->committed = 0;
}

/* Where the message of this id begins among those that aren't done, or `stop`; and how many are before it. */
static const char *find_message(uint64_t id, uint64_t *before) {
  const char *at = next;
  for (*before = 0; at < stop && plain_id(head_of(at).unique) != id; at += head_of(at).len) ++*before;
  return at;
}

/* A request was answered: it is done, and so are those before it, which have no answers. */
static void note_done(uint64_t id) {
  uint64_t before;
  const char *found = find_message(id, &before);
  if (found == stop) return;
  next = found + head_of(found).len;
  if (next >= committed) shared->committed = 0;
  note_first();
  shared->held -= before + 1;
}

static void note_taken(uint64_t unique) {
  note_done(plain_id(unique));
  shared->counts.answers++;
  bool is_resend = plain_id(unique) != unique;
  if (!is_resend && unique > shared->beyond) shared->is_single = 0;
}

void note_answer(const char *answer, size_t size, bool is_taken) {
  struct fuse_out_header head;
  if (size < sizeof head) return;
  memcpy(&head, answer, sizeof head);
  uint64_t id = plain_id(head.unique);
  bool is_asking = id == 0 && head.error == NOTIFY_RESEND;
  if (is_taken && is_asking && shared->notice == 0) shared->notice = milliseconds();
  if (is_taken && head.error == 0 && takes_room(opcode_of_answer(answer, size))) shared->writes++;
  if (is_taken && id != 0) note_taken(head.unique);
  if (!is_taken && id > shared->not_taken) shared->not_taken = id;
}

uint32_t opcode_of_answer(const char *answer, size_t size) {
  struct fuse_out_header head;
  uint64_t before;
  if (size < sizeof head) return 0;
  memcpy(&head, answer, sizeof head);
  const char *found = find_message(plain_id(head.unique), &before);
  return found == stop ? 0 : head_of(found).opcode;
}

void note_commit(void) {
  for (const char *at = next; at < stop && at + head_of(at).len <= given; at += head_of(at).len) {
    uint64_t id = plain_id(head_of(at).unique);
    if (id > shared->committed) shared->committed = id;
    committed = at + head_of(at).len;
  }
}

bool refuse_request(const char *message, size_t size) {
  struct fuse_in_header head = head_of(message);
  if (size < sizeof head || shared->refused == 0 || plain_id(head.unique) != shared->refused) return false;
  shared->refused = 0;
  if (is_silent(head.opcode)) return true;
  struct fuse_out_header answer = {.len = sizeof answer, .error = -EIO, .unique = head.unique};
  ssize_t done = syscall(SYS_write, STDOUT_FILENO, &answer, sizeof answer);
  if (shows()) show_answer((const char *)&answer, sizeof answer, done < 0 ? errno : 0);
  if (done == sizeof answer) shared->counts.answers++;
  return true;
}
