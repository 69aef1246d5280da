/* Bytes of others as text: names, and what other programs write. */
#include "text.h"
#include <stdint.h>
#include <stdio.h>
#include <string.h>

enum { DELETE = 0x7f, FIRST_AFTER_C1 = 0xa0 };

/* The lead bytes of UTF-8 from `first` to `last`: how many bytes follow, and between which the next one lies. */
static const struct { unsigned char first, last, following, low, high; } leads[] = {
  {0xc2, 0xdf, 1, 0x80, 0xbf}, {0xe0, 0xe0, 2, 0xa0, 0xbf}, {0xe1, 0xec, 2, 0x80, 0xbf}, {0xed, 0xed, 2, 0x80, 0x9f},
  {0xee, 0xef, 2, 0x80, 0xbf}, {0xf0, 0xf0, 3, 0x90, 0xbf}, {0xf1, 0xf3, 3, 0x80, 0xbf}, {0xf4, 0xf4, 3, 0x80, 0x8f},
};

static bool are_following(const unsigned char *from, size_t count) {
  for (size_t i = 0; i < count; i++)
    if ((from[i] & 0xc0) != 0x80) return false;
  return true;
}

/* The bytes of the character of more than one byte that begins here, or 0 where none does. */
static size_t length_of_long(const unsigned char *from, size_t left) {
  for (size_t i = 0; i < sizeof leads / sizeof *leads; i++) {
    if (from[0] < leads[i].first || from[0] > leads[i].last) continue;
    size_t length = leads[i].following + 1U;
    bool is_whole = left >= length && from[1] >= leads[i].low && from[1] <= leads[i].high;
    return is_whole && are_following(from + 1, length - 1) ? length : 0;
  }
  return 0;
}

/* The bytes of the character that begins here and is written as it is, or 0 where none does. */
static size_t length_of_shown(const char *text, size_t left, const char *others) {
  const unsigned char *from = (const unsigned char *)text;
  if (from[0] < ' ' || from[0] == DELETE || strchr(others, from[0])) return 0;
  if (from[0] < 0x80) return 1;
  size_t length = length_of_long(from, left);
  bool is_control = length == 2 && from[0] == 0xc2 && from[1] < FIRST_AFTER_C1;
  return is_control ? 0 : length;
}

size_t escape(char *to, size_t room, const char *from, size_t length, const char *others) {
  size_t used = 0;
  for (size_t at = 0; at < length;) {
    size_t shown = length_of_shown(from + at, length - at, others), needed = shown > 0 ? shown : ESCAPED_BYTE;
    if (used + needed >= room) break;
    if (shown > 0) memcpy(to + used, from + at, shown);
    else snprintf(to + used, ESCAPED_BYTE + 1, "\\%03o", (unsigned char)from[at]);
    used += needed;
    at += shown > 0 ? shown : 1;
  }
  to[used] = '\0';
  return used;
}
