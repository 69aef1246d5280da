/* A copy of a file. */
#define _GNU_SOURCE
#include "supervisor.h"
#include <errno.h>
#include <linux/fs.h>
#include <sys/ioctl.h>

enum { PIECE = 1 << 20, MOST_AT_ONCE = 1 << 30 };  /* bytes */

/* By bytes, where the kernel doesn't copy between these files itself. */
static bool copy_bytes(int from, int to, off_t at) {
  static char piece[PIECE];
  for (ssize_t length; (length = pread(from, piece, sizeof piece, at)) != 0; at += length) {
    errno = 0;
    if (length < 0 || pwrite(to, piece, (size_t)length, at) != length) return errno = errno ? errno : ENOSPC, false;
  }
  return true;
}

bool copy_file(int from, int to, bool *is_reference) {
  *is_reference = ioctl(to, FICLONE, from) == 0;
  off_t at = 0, put = 0;
  ssize_t length = *is_reference ? 0 : 1;
  while (length > 0) length = copy_file_range(from, &at, to, &put, MOST_AT_ONCE, 0);
  return length == 0 ? *is_reference || copy_bytes(from, to, at) : copy_bytes(from, to, at);
}
