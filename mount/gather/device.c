/* The device of an engine that begins a mount and then serves it. The store is mounted once the mount has begun in it, so that there is no
 * device before. The engine has begun the mount when it reads its first message. Then this library says so over a socket, and gets the
 * device over it. If the socket ends without one, the engine's input ends, too. */
#define _GNU_SOURCE
#include "gather.h"
#include <errno.h>
#include <stdlib.h>
#include <string.h>
#include <sys/socket.h>
#include <sys/syscall.h>
#include <unistd.h>

enum { NO_SOCKET = -1 };

static bool is_taken; /* the device, or its socket has ended */

int socket_of_device(void) {
  static int known;
  static bool is_known;
  const char *number = is_known ? NULL : getenv(DEVICE_VARIABLE);
  if (!is_known) known = number ? atoi(number) : NO_SOCKET;
  is_known = true;
  return is_taken ? NO_SOCKET : known;
}

bool awaits_device(void) {
  return socket_of_device() != NO_SOCKET;
}

/* The descriptor that comes over a socket; below 0 where it ends. */
static int received(int socket) {
  char byte;
  union { struct cmsghdr head; char bytes[CMSG_SPACE(sizeof(int))]; } control;
  struct iovec piece = {.iov_base = &byte, .iov_len = 1};
  struct msghdr message = {.msg_iov = &piece, .msg_iovlen = 1, .msg_control = &control, .msg_controllen = sizeof control};
  long size;
  int device = -1;
  do size = syscall(SYS_recvmsg, socket, &message, MSG_CMSG_CLOEXEC);
  while (size < 0 && errno == EINTR);
  struct cmsghdr *head = size == 1 ? CMSG_FIRSTHDR(&message) : NULL;
  bool has_descriptor = head && head->cmsg_level == SOL_SOCKET && head->cmsg_type == SCM_RIGHTS && head->cmsg_len == CMSG_LEN(sizeof device);
  if (has_descriptor) memcpy(&device, CMSG_DATA(head), sizeof device);
  return device;
}

void take_device(void) {
  int socket = socket_of_device();
  if (socket == NO_SOCKET) return;
  int device = syscall(SYS_write, socket, "", (size_t)1) == 1 ? received(socket) : -1;
  syscall(SYS_close, socket);
  is_taken = true;
  if (device < 0) return;
  for (int standard = STDIN_FILENO; standard <= STDOUT_FILENO; standard++) syscall(SYS_dup2, device, standard);
  syscall(SYS_close, device);
  report()->notice = milliseconds();
}

bool ignores_flushes(void) {
  static int known = -1;
  if (known < 0) known = getenv(VOLATILE_VARIABLE) != NULL;
  return known > 0 && !awaits_device();
}
