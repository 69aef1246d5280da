/* The library's reads and writes of the device, which this file plays: what a server reads, in pieces of any sizes, is what the device
 * gave, message after message, but for the one that is refused. */
#include <errno.h>
#include <fcntl.h>
#include <linux/fuse.h>
#include <poll.h>
#include <stdarg.h>
#include <stdint.h>
#include <stdlib.h>
#include <string.h>
#include <sys/stat.h>
#include <sys/syscall.h>
#include <sys/sysmacros.h>
#include <unistd.h>

static long device_call(long number, ...);

static int device_stat(int file, struct stat *found) {
  (void)file;
  *found = (struct stat){.st_mode = S_IFCHR, .st_rdev = makedev(10, 229)};
  return 0;
}

static int device_poll(struct pollfd *waits, nfds_t count, int pause);

static int device_flags(int file, int command, ...) {
  (void)file, (void)command;
  return 0;
}

#define syscall device_call
#define fstat device_stat
#define poll device_poll
#define fcntl device_flags
#include "../../../mount/gather/gather.c"
#include "../../../mount/gather/hold.c"
#include "../../../mount/gather/work.c"
#undef syscall

bool shows(void) {
  return false;
}

void show_request(const char *message, size_t size) {
  (void)message, (void)size;
}

void show_answer(const char *answer, size_t size, int error) {
  (void)answer, (void)size, (void)error;
}

bool awaits_device(void) {
  return false;
}

void take_device(void) {}

void pay_in_time(int device) {
  (void)device;
}

void pay_for_answer(const char *answer, size_t size) {
  (void)answer, (void)size;
}

enum { MOST = 1 << 18 };

static const uint8_t *input;
static size_t left;
static char shown[MOST];      /* what the device gave and a server should read */
static size_t made, taken;

static unsigned next_byte(void) {
  return left > 0 ? (left--, *input++) : 0;
}

/* A message of the kernel: its length is that of its bytes. */
static long make_message(char *to, size_t room) {
  struct fuse_in_header head = {0};
  size_t body = next_byte() * (next_byte() % 8);
  if (left == 0 || sizeof head + body > room || made + sizeof head + body > MOST) return errno = EAGAIN, -1;
  head.len = (uint32_t)(sizeof head + body);
  head.opcode = next_byte() % 56;
  head.unique = 2 * (next_byte() + 1ULL) | (next_byte() % 2 ? 1ULL << 63 : 0);
  memcpy(to, &head, sizeof head);
  memset(to + sizeof head, (int)next_byte(), body);
  if (report()->refused == (head.unique & ~(1ULL << 63)) && report()->refused != 0) return head.len;
  memcpy(shown + made, to, head.len);
  made += head.len;
  return head.len;
}

static int device_poll(struct pollfd *waits, nfds_t count, int pause) {
  (void)pause;
  if (left == 0 || count != 1) return 0;
  waits->revents = POLLIN;
  return 1;
}

static long device_call(long number, ...) {
  va_list words;
  va_start(words, number);
  int file = va_arg(words, int);
  char *bytes = va_arg(words, char *);
  size_t size = va_arg(words, size_t);
  va_end(words);
  if (number == SYS_read && file == STDIN_FILENO) return make_message(bytes, size);
  if (number == SYS_write && file == STDOUT_FILENO) return (long)size;
  return syscall(number, file, bytes, size);
}

static void read_some(void) {
  static char piece[1 << 16];
  ssize_t size = read(STDIN_FILENO, piece, 1 + next_byte() * 257);
  if (size <= 0) return;
  if ((size_t)size > made - taken || memcmp(piece, shown + taken, (size_t)size) != 0) abort();
  taken += (size_t)size;
}

static void write_some(void) {
  struct fuse_out_header head = {.len = sizeof head, .unique = 2 * (next_byte() + 1ULL)};
  if (next_byte() % 16 == 0) head.unique = 0, head.error = (int)next_byte() % 10;
  write(STDOUT_FILENO, &head, sizeof head);
}

int LLVMFuzzerTestOneInput(const uint8_t *bytes, size_t size) {
  input = bytes;
  left = size;
  begin = end = made = taken = 0;
  end_turn();
  *report() = (struct report){0};
  setenv(GROUPS_VARIABLE, "1", 1);
  report()->refused = 2 * (next_byte() % 32);
  while (left > 0) {
    if (next_byte() % 3 > 0) read_some();
    else write_some();
    if (next_byte() % 8 == 0) note_commit();
  }
  return 0;
}
