/* Preloaded into a server, whose standard input is the device. One read(2) of the device gives one message, and a server commits the
 * messages of a read together. Here its read gets those that wait, 16 at most. They are read into bytes of this library and given out as
 * the server asks for them, cut anywhere. What was read and not given out is among what the next server gets if this one dies.
 *
 * A server has one thread, and only it reads. */
#define _GNU_SOURCE
#include "gather.h"
#include <errno.h>
#include <fcntl.h>
#include <poll.h>
#include <signal.h>
#include <stdlib.h>
#include <string.h>
#include <sys/stat.h>
#include <sys/syscall.h>
#include <sys/sysmacros.h>
#include <unistd.h>

enum { LEAST_ROOM = 131152 }; /* bytes, without which the kernel gives no message: the headers of a WRITE and 128 KiB */
enum { MOST_ROOM = 135168 };  /* bytes; the kernel makes a BATCH_FORGET as long as there is room, and a server takes no longer message */
enum { DEVICE_MAJOR = 10, DEVICE_MINOR = 229 };

static char held[1 << 20];
static size_t begin, end; /* of what isn't given out */
static bool gathers;
static int flags;         /* of the device, whose reads wait */

/* The signal by which fusekeep-mount ends a read that waits, as it asks the server to end. */
static void wake(int signal) {
  (void)signal;
}

static void take_wakes(void) {
  struct sigaction action = {.sa_handler = wake};
  sigaction(SIGUSR1, &action, NULL);
}

/* Whether standard input is the device, which the first call finds out after the device has come. All bytes are written then: where the
 * kernel copies a message into a page that isn't there and the server is killed meanwhile, the caller gets EIO. */
static bool has_device(void) {
  static enum { UNKNOWN, DEVICE, OTHER } kind;
  struct stat input;
  if (kind != UNKNOWN || awaits_device()) return kind == DEVICE;
  bool is_device = fstat(STDIN_FILENO, &input) == 0 && S_ISCHR(input.st_mode) && input.st_rdev == makedev(DEVICE_MAJOR, DEVICE_MINOR);
  kind = is_device ? DEVICE : OTHER;
  if (!is_device) return false;
  memset(held, 0, sizeof held);
  take_wakes();
  flags = fcntl(STDIN_FILENO, F_GETFL);
  gathers = getenv(GROUPS_VARIABLE) && flags >= 0;
  return true;
}

/* Reads one message after what is held. Nothing is held of one that is kept back, or answered here. */
static ssize_t take(void) {
  size_t room = sizeof held - end;
  ssize_t size;
  do size = report()->ends ? 0 : syscall(SYS_read, STDIN_FILENO, held + end, room < MOST_ROOM ? room : MOST_ROOM);
  while (size < 0 && errno == EINTR);
  if (size <= 0) return size;
  report()->counts.requests++;
  if (shows()) show_request(held + end, (size_t)size);
  if (!keep_back(held + end, (size_t)size) && !refuse_request(held + end, (size_t)size)) end += (size_t)size;
  return size;
}

static bool waits(void) {
  struct pollfd device = {.fd = STDIN_FILENO, .events = POLLIN};
  return poll(&device, 1, 0) == 1 && device.revents & POLLIN;
}

/* Takes the messages that wait after the first one. A message goes with its caller, so one that poll(2) has seen may be gone, and no
 * read may block while others are held. The flag for that is one of the open device, which fusekeep-mount and the next server have too:
 * it is set only here, and fusekeep-mount clears it before it starts a server. An error comes again at the next first read. */
static void take_others(void) {
  if (!gathers || report()->is_single || report()->is_full || !waits() || fcntl(STDIN_FILENO, F_SETFL, flags | O_NONBLOCK) != 0) return;
  for (int count = 1; count < GATHERED_MOST && sizeof held - end >= LEAST_ROOM && take() > 0;) count++;
  fcntl(STDIN_FILENO, F_SETFL, flags);
}

/* Takes the messages of a turn. */
static ssize_t take_turn(void) {
  ssize_t first;
  begin = end = 0;
  end_turn();
  pay_in_time(STDIN_FILENO);
  do first = take();
  while (first > 0 && end == 0);
  if (first <= 0) return first;
  take_others();
  begin_turn(held, end);
  return first;
}

#pragma GCC visibility push(default)

ssize_t read(int file, void *to, size_t size) {
  if (file == STDIN_FILENO) take_device();
  if (file != STDIN_FILENO || !has_device()) return syscall(SYS_read, file, to, size);
  if (begin == end) {
    ssize_t first = take_turn();
    if (first <= 0) return first;
  }
  if (size > end - begin) size = end - begin;
  memcpy(to, held + begin, size);
  begin += size;
  note_given(held + begin);
  return (ssize_t)size;
}

/* An answer, or a notice, is one write. When a FSYNC is answered, what was written is on the disk. */
ssize_t write(int file, const void *from, size_t size) {
  bool is_answer = file == STDOUT_FILENO && has_device();
  if (is_answer) pay_for_answer(from, size);
  ssize_t done = syscall(SYS_write, file, from, size);
  int error = done < 0 ? errno : 0;
  if (is_answer) note_answer(from, size, done >= 0);
  if (is_answer && shows()) show_answer(from, size, error);
  if (error != 0) errno = error;
  return done;
}

ssize_t __write(int file, const void *from, size_t size) __attribute__((alias("write")));

#pragma GCC visibility pop
