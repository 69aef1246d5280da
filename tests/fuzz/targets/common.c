/* What the sources of fusekeep-mount call of its main file, for the targets of the fuzzer. */
#include "../../../mount/supervisor.h"
#include <errno.h>
#include <stdarg.h>

void say(const char *form, ...) {
  static char line[LINE_SIZE + 3 * PATH_MAX];
  va_list words;
  va_start(words, form);
  vsnprintf(line, sizeof line, form, words);
  va_end(words);
}

bool refused(const char *what) {
  say("%s: %d", what, errno);
  return false;
}

long long now(void) {
  return 0;
}
