/* Lines of the table of mounts. */
#include "../../../mount/mounts.c"
#include <stdint.h>

int LLVMFuzzerTestOneInput(const uint8_t *bytes, size_t size) {
  struct mounted found;
  char *line = calloc(1, size + 1);
  memcpy(line, bytes, size);
  if (read_line(line, &found) && strlen(found.place) + strlen(found.source) + strlen(found.kind) > 2 * size) abort();
  free(line);
  return 0;
}
