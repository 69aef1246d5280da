/* What an engine wrote to its standard error: its last line is shown. */
#include "../../../mount/children.c"
#include <stdint.h>
#include <sys/mman.h>

int LLVMFuzzerTestOneInput(const uint8_t *bytes, size_t size) {
  static struct supervisor s = {.store = "/a/store"};
  if (s.lock == 0) s.lock = memfd_create("lines", MFD_CLOEXEC);
  if (ftruncate(s.lock, 0) != 0 || pwrite(s.lock, bytes, size, 0) != (ssize_t)size) abort();
  for (const char *at = last_line(&s); *at; at++)
    if ((unsigned char)*at < ' ' || *at == 0x7f) abort();
  ending(&s, size % 2 ? SIGKILL : 0x300);
  return 0;
}
