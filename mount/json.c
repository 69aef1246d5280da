/* Values of JSON. */
#define _GNU_SOURCE
#include "supervisor.h"
#include <stdio.h>
#include <string.h>

/* The bytes of the UTF-8 sequence that begins here, or 0. RFC 3629 allows no longer forms, no surrogates, and nothing above U+10FFFF. */
static int length_of_character(const unsigned char *from) {
  static const struct { unsigned char first, last, low, high; int length; } forms[] = {
    {0x01, 0x7f, 0, 0, 1}, {0xc2, 0xdf, 0x80, 0xbf, 2}, {0xe0, 0xe0, 0xa0, 0xbf, 3}, {0xe1, 0xec, 0x80, 0xbf, 3},
    {0xed, 0xed, 0x80, 0x9f, 3}, {0xee, 0xef, 0x80, 0xbf, 3}, {0xf0, 0xf0, 0x90, 0xbf, 4}, {0xf1, 0xf3, 0x80, 0xbf, 4},
    {0xf4, 0xf4, 0x80, 0x8f, 4},
  };
  size_t form = 0;
  while (form < sizeof forms / sizeof *forms && (*from < forms[form].first || *from > forms[form].last)) form++;
  if (form == sizeof forms / sizeof *forms) return 0;
  int length = forms[form].length;
  if (length == 1) return 1;
  if (from[1] < forms[form].low || from[1] > forms[form].high) return 0;
  for (int i = 2; i < length; i++)
    if (from[i] < 0x80 || from[i] > 0xbf) return 0;
  return length;
}

/* The length of the digits that begin here. */
static size_t length_of_digits(const char *from) {
  return strspn(from, "0123456789");
}

void print_json_number(const char *text) {
  size_t whole = length_of_digits(text), part = text[whole] == '.' ? 1 + length_of_digits(text + whole + 1) : 0;
  bool is_number = whole > 0 && (whole == 1 || *text != '0') && part != 1 && !text[whole + part];
  printf("%s", is_number ? text : "null");
}

void print_json_text(const char *text) {
  const unsigned char *from = (const unsigned char *)text;
  putchar('"');
  while (*from) {
    int length = length_of_character(from);
    if (length == 0) printf("\\udc%02x", *from++);
    else if (*from == '"' || *from == '\\') printf("\\%c", *from++);
    else if (*from < ' ' || *from == 0x7f) printf("\\u%04x", *from++);
    else from += fwrite(from, 1, (size_t)length, stdout);
  }
  putchar('"');
}
