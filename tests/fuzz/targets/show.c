/* The lines of -d for requests and answers. They have no control characters but the newline at their end. */
#include "../../../mount/gather/gather.h"
#define syscall take_line
static long take_line(long number, ...);
#include "../../../mount/gather/show.c"
#undef syscall
#include "../../../mount/gather/work.c"
#include "../../../mount/gather/hold.c"

static long take_line(long number, ...) {
  (void)number;
  for (size_t i = 0; i < length; i++)
    if (((unsigned char)line[i] < ' ' || line[i] == 0x7f) && (line[i] != '\n' || i != length - 1)) abort();
  return (long)length;
}

int LLVMFuzzerTestOneInput(const uint8_t *bytes, size_t size) {
  char *message = malloc(size + 1);
  memcpy(message, bytes, size);
  descriptor = 1;
  show_request(message, size);
  show_answer(message, size, size % 2 ? ENOENT : 0);
  free(message);
  return 0;
}
