/* Which flushes of the log may be put off. One may if, since the last one that the server asked for, it has written to the log only
 *
 * - a commit that counts its zeros, over zeros that were flushed. A cut of power leaves each of its bytes old or new, and an opening
 *   takes it whole or not at all, and nothing after one that it doesn't take;
 * - the one byte that opens a gate, while all that lies after it is flushed;
 * - more zeros after the zeros.
 *
 * Whatever else it has written is hard: the flush is made. */
#define _GNU_SOURCE
#include "gather.h"
#include <fcntl.h>
#include <stdint.h>
#include <string.h>
#include <sys/syscall.h>
#include <sys/vfs.h>
#include <unistd.h>

enum { SALT = 16, MAGIC = 0x37 };            /* of the header: the place of its salt's first byte; its first byte */
enum { LEAST_ZEROS = 64, WINDOW = 1 << 18 }; /* bytes that count as zeros; that a server writes in the first commit of a log */
enum { AHEAD = 4 << 20, ROOM_TIMES = 16 };   /* bytes of zeros that are made; for which the disk has so many times the room */
enum { MOST_PARTS = 16, COUNT_SIZE = 4 };

/* The number of the page with which a commit begins that counts its zeros. */
static const unsigned char count_page[COUNT_SIZE] = {0xff, 0, 0, 0};

struct span {
  off_t from, to;
};

static struct span flushed; /* zeros that are on the disk, upon which nothing was written before the last flush was asked for */
static struct span ahead;   /* zeros as they are written: what `flushed` is after a flush */
static struct span parts[MOST_PARTS]; /* what was written upon `flushed` since then */
static int count;
static bool is_hard = true, is_clean; /* so was something since then; nothing was written since the last flush that was made */
static int key = -1;                  /* the first byte of the header's salt; below 0 where it isn't known */
static off_t written_to;              /* the end of the last bytes that were written of a commit; 0 where none is known */
static off_t end;                     /* the same, of a commit whose gate was opened */

void begin_zeros(void) {
  flushed = ahead = (struct span){0, 0};
  is_hard = true;
  is_clean = false;
  count = 0;
  key = -1;
  written_to = end = 0;
}

bool may_put_off(void) {
  return !is_hard;
}

bool has_unflushed(void) {
  return !is_clean;
}

void note_flushed(void) {
  is_clean = true;
  if (!is_hard) flushed.to = ahead.to;
}

void note_asked(bool is_made) {
  if (is_made) flushed = ahead;
  flushed.from = ahead.from;
  is_hard = false;
  count = 0;
  if (end > 0) report()->acknowledged = (uint64_t)end;
}

static bool ends_in_zeros(const unsigned char *bytes, size_t size) {
  uint64_t last;
  if (size < sizeof last) return false;
  memcpy(&last, bytes + size - sizeof last, sizeof last);
  return last == 0;
}

/* The bytes before the zeros at the end. */
static size_t used(const unsigned char *bytes, size_t size) {
  while (ends_in_zeros(bytes, size)) size -= sizeof(uint64_t);
  while (size > 0 && bytes[size - 1] == 0) size--;
  return size;
}

static bool has_room(int log) {
  struct statfs room;
  return fstatfs(log, &room) == 0 && room.f_bavail >= (uint64_t)ROOM_TIMES * AHEAD / (uint64_t)room.f_bsize;
}

/* Makes zeros after those that are written, without writing them. On a disk that is nearly full, or a file system that can't, those that
 * the server writes must do. */
static void make_zeros(int log) {
  if (!has_room(log) || syscall(SYS_fallocate, log, FALLOC_FL_ZERO_RANGE, ahead.to, (off_t)AHEAD) != 0) return;
  ahead.to += AHEAD;
}

static void note_zeros(int log, struct span zeros) {
  if (zeros.from >= ahead.from && zeros.from <= ahead.to) {
    if (zeros.to > ahead.to) ahead.to = zeros.to;
    return;
  }
  ahead = zeros;
  is_hard = true;
  if (zeros.to - zeros.from >= WINDOW) make_zeros(log);
}

/* The log's first byte opens the gate of the log. Another write to its header begins the log again. */
static void note_header(const unsigned char *bytes, size_t size, off_t at, bool was_clean) {
  if (at <= SALT && at + (off_t)size > SALT) key = bytes[SALT - at];
  if (at == 0 && size == 1 && bytes[0] == MAGIC && was_clean) return;
  flushed = ahead = (struct span){0, 0};
  is_hard = true;
}

static bool opens_gate(int log, const unsigned char *bytes, size_t size) {
  unsigned char byte;
  if (size != 1) return false;
  if (key < 0 && syscall(SYS_pread64, log, &byte, 1, (off_t)SALT) == 1) key = byte;
  return bytes[0] == key;
}

static bool is_upon_part(struct span span) {
  for (int i = 0; i < count; i++)
    if (span.from < parts[i].to && parts[i].from < span.to) return true;
  return false;
}

/* Whether bytes belong to a commit that counts its zeros. */
static bool is_counted(const unsigned char *bytes, size_t size) {
  return count > 0 || (size >= COUNT_SIZE && memcmp(bytes, count_page, COUNT_SIZE) == 0);
}

/* A commit goes beyond the zeros that are flushed, upon others that are written: these are flushed before, and more of them are made, so
 * that this is seldom. What is written of the commit is flushed with them, and stays noted. */
static bool reach_further(int log, off_t to) {
  if (to <= flushed.to || to > ahead.to) return true;
  make_zeros(log);
  return flush_log(SYS_fdatasync) == 0;
}

/* Bytes of a commit, which end before the zeros at their end. */
static bool note_bytes(int log, const unsigned char *bytes, size_t size, off_t at) {
  struct span span = {at, at + (off_t)used(bytes, size)};
  off_t to = at + (off_t)size;
  bool is_soft = !is_hard && is_counted(bytes, size) && at >= flushed.from && !is_upon_part(span) && count < MOST_PARTS;
  if (is_soft && !reach_further(log, to)) return false;
  is_soft = is_soft && to <= flushed.to;
  if (is_soft) parts[count++] = span;
  else is_hard = true;
  if (at < ahead.to && span.to > ahead.from) ahead.from = span.to;
  if (ahead.from > ahead.to) ahead.to = ahead.from;
  return true;
}

/* A gate is one byte, which is 0 while it is shut. */
void note_end(const void *from, size_t size, off_t at) {
  size_t length = used(from, size);
  if (at < HEADER_SIZE) {
    report()->acknowledged = 0;
    written_to = end = 0;
  } else if (size > 1 && length > 0) {
    written_to = at + (off_t)length;
  } else if (length > 0) {
    end = written_to;
  }
}

bool changes_nothing(const void *from, size_t size, off_t at) {
  bool is_among_zeros = at >= HEADER_SIZE && at >= ahead.from && at + (off_t)size <= ahead.to;
  return size >= LEAST_ZEROS && is_among_zeros && used(from, size) == 0;
}

bool note_write(int log, const void *from, size_t size, off_t at) {
  const unsigned char *bytes = from;
  bool was_clean = is_clean, is_zero = used(bytes, size) == 0;
  struct span span = {at, at + (off_t)size};
  if (size == 0) return true;
  is_clean = false;
  if (at < HEADER_SIZE) note_header(bytes, size, at, was_clean);
  else if (is_zero && size >= LEAST_ZEROS) note_zeros(log, span);
  else if (is_zero) is_hard = is_hard || at < flushed.from || span.to > flushed.to || is_upon_part(span);
  else if (!was_clean || !opens_gate(log, bytes, size)) return note_bytes(log, bytes, size, at);
  return true;
}
