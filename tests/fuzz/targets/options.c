/* The words of the option -o, a size and a profile among them. */
#include "../../../mount/arguments.c"
#include <stdint.h>

int LLVMFuzzerTestOneInput(const uint8_t *bytes, size_t size) {
  static struct supervisor s;
  char *words = calloc(1, size + 1);
  memset(&s, 0, sizeof s);
  memcpy(words, bytes, size);
  if (take_options(&s, words)) fits_profile(&s);
  if (strlen(s.options) >= OPTIONS_SIZE || strlen(s.data) >= OPTIONS_SIZE) abort();
  free(words);
  return 0;
}
