/* Preloaded into passthrough_ll, for bench/mount --flush: a flush takes SLOW_FLUSH microseconds, and does nothing else. */
#define _GNU_SOURCE
#include <stdlib.h>
#include <time.h>

static int wait(void) {
  const char *number = getenv("SLOW_FLUSH");
  long long all = number ? atoll(number) * 1000 : 0;
  struct timespec left = {all / 1000000000, all % 1000000000};
  while (clock_nanosleep(CLOCK_MONOTONIC, 0, &left, &left) != 0) continue;
  return 0;
}

int fsync(int file) {
  (void)file;
  return wait();
}

int fdatasync(int file) {
  (void)file;
  return wait();
}
