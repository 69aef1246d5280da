/* What the library and fusekeep-mount have in common to write of messages. */
#ifndef TEXT_H
#define TEXT_H
#include <stdbool.h>
#include <stddef.h>
#include <stdint.h>

/* opcodes.c */

/* The name of an opcode, or NULL. */
const char *name_of_opcode(uint32_t opcode);

/* Where the first name of a request of this opcode begins in its body, and how many names it has. */
size_t place_of_names(uint32_t opcode, int *count);

/* Whether requests of this opcode have no answer. */
bool is_silent(uint32_t opcode);

/* escape.c */

enum { ESCAPED_BYTE = 4 }; /* bytes that one byte takes at most */

/* Writes bytes as text that does nothing to a terminal, with a zero at its end, and returns its length. Control characters, those of C1
 * too, bytes that aren't UTF-8, and `others` are written as a backslash and three octal digits. What has no room is cut. */
size_t escape(char *to, size_t room, const char *from, size_t length, const char *others);

#endif
