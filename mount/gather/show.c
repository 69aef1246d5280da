/* Lines for the messages of a device. */
#define _GNU_SOURCE
#include "gather.h"
#include <errno.h>
#include <linux/fuse.h>
#include <stdarg.h>
#include <stdint.h>
#include <stdio.h>
#include <stdlib.h>
#include <string.h>
#include <sys/syscall.h>
#include <time.h>
#include <unistd.h>

enum { LINE_SIZE = 2048, TIME_SIZE = 16, ASKED = 1024, LAST_ERROR = 4095 };

/* The last requests, by their ids. An answer has no opcode. */
static struct { uint64_t id; uint32_t opcode; struct timespec at; } asked[ASKED];

static int descriptor = -1;
static char line[LINE_SIZE];
static size_t length;

bool shows(void) {
  static bool is_known;
  const char *number = is_known ? NULL : getenv(LINES_VARIABLE);
  if (number) descriptor = atoi(number);
  is_known = true;
  return descriptor >= 0;
}

/* A line that is too long is cut. */
__attribute__((format(printf, 1, 2))) static void put(const char *form, ...) {
  va_list words;
  va_start(words, form);
  int added = vsnprintf(line + length, sizeof line - length, form, words);
  va_end(words);
  if (added > 0) length += (size_t)added;
  if (length > sizeof line - 2) length = sizeof line - 2;
}

static void begin_line(void) {
  struct timespec at;
  struct tm parts;
  char moment[TIME_SIZE];
  clock_gettime(CLOCK_REALTIME, &at);
  strftime(moment, sizeof moment, "%H:%M:%S", gmtime_r(&at.tv_sec, &parts));
  length = 0;
  put("%s.%06ldZ ", moment, at.tv_nsec / 1000);
}

static void end_line(void) {
  line[length++] = '\n';
  syscall(SYS_write, descriptor, line, length);
}

static void put_opcode(uint32_t opcode) {
  const char *name = name_of_opcode(opcode);
  if (name) put("%s", name);
  else put("opcode=%u", opcode);
}

/* A name in quotes. Returns its size, with the zero at its end. */
static size_t put_name(const char *name, size_t most) {
  char text[LINE_SIZE];
  size_t length = strnlen(name, most);
  escape(text, sizeof text, name, length, "\"\\");
  put(" \"%s\"", text);
  return length < most ? length + 1 : length;
}

static void put_names(uint32_t opcode, const char *body, size_t size) {
  int left;
  for (size_t at = place_of_names(opcode, &left); left > 0 && at < size; left--) at += put_name(body + at, size - at);
}

void show_request(const char *message, size_t size) {
  struct fuse_in_header head;
  if (size < sizeof head) return;
  memcpy(&head, message, sizeof head);
  uint64_t id = plain_id(head.unique);
  begin_line();
  put_opcode(head.opcode);
  put(" id=%llu resend=%d node=%llu len=%u pid=%u",
      (unsigned long long)id, id != head.unique, (unsigned long long)head.nodeid, head.len, head.pid);
  put_names(head.opcode, message + sizeof head, size - sizeof head);
  end_line();
  if (head.opcode == FUSE_INTERRUPT) return;
  asked[id / 2 % ASKED].id = id;
  asked[id / 2 % ASKED].opcode = head.opcode;
  clock_gettime(CLOCK_MONOTONIC, &asked[id / 2 % ASKED].at);
}

static long long microseconds_since(const struct timespec *at) {
  struct timespec now;
  clock_gettime(CLOCK_MONOTONIC, &now);
  return (now.tv_sec - at->tv_sec) * 1000000LL + (now.tv_nsec - at->tv_nsec) / 1000;
}

/* A notice has no id, and its code is the error number. */
static void put_notice(int code) {
  const char *name = code == NOTIFY_RESEND ? " RESEND" : "";
  put("notice=%d%s", code, name);
}

static void put_answer(const struct fuse_out_header *head) {
  uint64_t id = plain_id(head->unique), place = id / 2 % ASKED;
  int number = head->error < 0 && head->error >= -LAST_ERROR ? -head->error : 0;
  bool is_known = asked[place].id == id;
  if (is_known) put_opcode(asked[place].opcode), put(" ");
  put("id=%llu resend=%d errno=%lld len=%u", (unsigned long long)id, id != head->unique, -(long long)head->error, head->len);
  if (is_known) put(" us=%lld", microseconds_since(&asked[place].at));
  if (number != 0) put(" %s", strerror(number));
}

void show_answer(const char *answer, size_t size, int error) {
  struct fuse_out_header head;
  int before = errno;
  if (size >= sizeof head) {
    memcpy(&head, answer, sizeof head);
    begin_line();
    if (head.unique == 0) put_notice(head.error);
    else put_answer(&head);
    if (error != 0) put(" not taken: %s", strerror(error));
    end_line();
  }
  errno = before;
}
