/* Lines of /proc/locks. */
#include "../../../mount/holder.c"
#include <stdint.h>

int LLVMFuzzerTestOneInput(const uint8_t *bytes, size_t size) {
  char *line = calloc(1, size + 1);
  memcpy(line, bytes, size);
  owner_in_line(line, 1);
  free(line);
  return 0;
}
