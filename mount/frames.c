/* The commits of a log in SQLite's format, as far as its checksums hold. */
#define _GNU_SOURCE
#include "gather/gather.h"
#include "supervisor.h"
#include <string.h>

enum { SIGNED_SIZE = 24, SUM_SIZE = 8, LARGEST_PAGE = 1 << 16 };                         /* of a log */
enum { PAGE_SIZE_PLACE = 8, SALTS = 16, SALTS_SIZE = 8 };                                /* in its header */
enum { FRAME_SIZE = 24, COMMIT = 4, FRAME_SALTS = 8, FRAME_SUM = 16, FRAME_SIGNED = 8 }; /* of the header of a frame, and in it */

struct sum {
  uint32_t first, second;
};

static uint32_t number(const unsigned char *at, bool is_big) {
  return is_big ? (uint32_t)at[0] << 24 | (uint32_t)at[1] << 16 | (uint32_t)at[2] << 8 | at[3]
                : (uint32_t)at[3] << 24 | (uint32_t)at[2] << 16 | (uint32_t)at[1] << 8 | at[0];
}

static struct sum add(struct sum sum, const unsigned char *bytes, size_t size, bool is_big) {
  for (size_t at = 0; at < size; at += SUM_SIZE) {
    sum.first += number(bytes + at, is_big) + sum.second;
    sum.second += number(bytes + at + 4, is_big) + sum.first;
  }
  return sum;
}

static bool has_sum(const unsigned char *at, struct sum sum) {
  return number(at, true) == sum.first && number(at + 4, true) == sum.second;
}

/* The size of a page, or 0 where this isn't the header of a log. */
static size_t page_size_of(const unsigned char *head, bool is_big) {
  static const unsigned char magic[] = {0x37, 0x7f, 0x06};
  size_t size = number(head + PAGE_SIZE_PLACE, true);
  bool is_log = memcmp(head, magic, sizeof magic) == 0 && (head[3] & 0xfe) == 0x82;
  bool is_signed = is_log && has_sum(head + SIGNED_SIZE, add((struct sum){0, 0}, head, SIGNED_SIZE, is_big));
  return is_signed && size >= 512 && size <= LARGEST_PAGE && (size & (size - 1)) == 0 ? size : 0;
}

off_t end_of_commits(int log) {
  static unsigned char head[HEADER_SIZE], frame[FRAME_SIZE + LARGEST_PAGE];
  if (pread(log, head, sizeof head, 0) != sizeof head) return 0;
  bool is_big = head[3] & 1;
  size_t page = page_size_of(head, is_big), size = FRAME_SIZE + page;
  struct sum sum = {number(head + SIGNED_SIZE, true), number(head + SIGNED_SIZE + 4, true)};
  off_t end = 0;
  for (off_t at = HEADER_SIZE; page > 0 && pread(log, frame, size, at) == (ssize_t)size; at += (off_t)size) {
    if (memcmp(frame + FRAME_SALTS, head + SALTS, SALTS_SIZE) != 0) break;
    sum = add(add(sum, frame, FRAME_SIGNED, is_big), frame + FRAME_SIZE, page, is_big);
    if (!has_sum(frame + FRAME_SUM, sum)) break;
    if (number(frame + COMMIT, true) != 0) end = at + (off_t)size;
  }
  return end;
}
