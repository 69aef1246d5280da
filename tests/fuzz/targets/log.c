/* A log: pages of 512 bytes, whose header is signed and whose frames are as far as the first byte says. A commit ends within it. */
#include "../../../mount/frames.c"
#include <stdint.h>
#include <stdlib.h>
#include <sys/mman.h>

enum { PAGE = 512, WHOLE = FRAME_SIZE + PAGE, MOST_BYTES = 4096 };

static void put_number(unsigned char *at, uint32_t number) {
  for (int i = 0; i < 4; i++) at[i] = (unsigned char)(number >> (24 - 8 * i));
}

static void put_sum(unsigned char *at, struct sum sum) {
  put_number(at, sum.first);
  put_number(at + 4, sum.second);
}

static struct sum sign_header(unsigned char *log) {
  static const unsigned char magic[] = {0x37, 0x7f, 0x06};
  memcpy(log, magic, sizeof magic);
  log[3] = 0x82 | (log[3] & 1);
  put_number(log + PAGE_SIZE_PLACE, PAGE);
  struct sum sum = add((struct sum){0, 0}, log, SIGNED_SIZE, log[3] & 1);
  put_sum(log + SIGNED_SIZE, sum);
  return sum;
}

int LLVMFuzzerTestOneInput(const uint8_t *bytes, size_t size) {
  static unsigned char log[MOST_BYTES];
  if (size < 1 + HEADER_SIZE || size > MOST_BYTES) return 0;
  size_t signed_frames = bytes[0] % 8, length = size - 1;
  memcpy(log, bytes + 1, length);
  struct sum sum = sign_header(log);
  for (size_t at = HEADER_SIZE; signed_frames-- > 0 && at + WHOLE <= length; at += WHOLE) {
    memcpy(log + at + FRAME_SALTS, log + SALTS, SALTS_SIZE);
    sum = add(add(sum, log + at, FRAME_SIGNED, log[3] & 1), log + at + FRAME_SIZE, PAGE, log[3] & 1);
    put_sum(log + at + FRAME_SUM, sum);
  }
  int file = memfd_create("log", MFD_CLOEXEC);
  if (file < 0 || write(file, log, length) != (ssize_t)length) abort();
  off_t end = end_of_commits(file);
  if (end != 0 && (end > (off_t)length || (end - HEADER_SIZE) % WHOLE != 0)) abort();
  close(file);
  return 0;
}
