/* The mount and its device. */
#define _GNU_SOURCE
#include "supervisor.h"
#include <errno.h>
#include <fcntl.h>
#include <poll.h>
#include <stdlib.h>
#include <string.h>
#include <sys/mount.h>
#include <sys/socket.h>
#include <sys/wait.h>

static bool mount_as_root(struct supervisor *s) {
  char data[OPTIONS_SIZE + 128], place[LINE_SIZE];
  s->device = open("/dev/fuse", O_RDWR | O_CLOEXEC);
  if (s->device < 0) return refused("/dev/fuse");
  snprintf(data, sizeof data, "fd=%d,rootmode=40000,user_id=%u,group_id=%u,default_permissions%s",
           s->device, getuid(), getgid(), s->data);
  snprintf(place, sizeof place, "/proc/self/fd/%d", s->place);
  return mount(s->store, place, "fuse.fusekeep", s->flags, data) == 0 || refused(s->mountpoint);
}

/* The descriptor that fusermount3 sends, or -1 where it sends none. */
static int received_descriptor(int socket) {
  char byte;
  union { struct cmsghdr head; char bytes[CMSG_SPACE(sizeof(int))]; } control;
  struct iovec piece = {.iov_base = &byte, .iov_len = 1};
  struct msghdr message = {.msg_iov = &piece, .msg_iovlen = 1, .msg_control = &control, .msg_controllen = sizeof control};
  int device = -1;
  if (recvmsg(socket, &message, MSG_CMSG_CLOEXEC) != 1) return -1;
  struct cmsghdr *head = CMSG_FIRSTHDR(&message);
  bool has_descriptor = head && head->cmsg_level == SOL_SOCKET && head->cmsg_type == SCM_RIGHTS && head->cmsg_len == CMSG_LEN(sizeof device);
  if (has_descriptor) memcpy(&device, CMSG_DATA(head), sizeof device);
  return device;
}

/* The words for fusermount3. In the source's name a comma or a backslash is marked. */
static void put_words(const struct supervisor *s, char *out) {
  out += sprintf(out, "default_permissions,subtype=fusekeep%s,fsname=", s->options);
  for (const char *from = s->store; *from; *out++ = *from++)
    if (*from == ',' || *from == '\\') *out++ = '\\';
  *out = '\0';
}

/* fusermount3 takes a path alone. So it is given the working directory, which it resolves anew. */
static bool mount_by_fusermount(struct supervisor *s) {
  char words[OPTIONS_SIZE + 2 * PATH_MAX + 64], number[16];
  int ends[2], status;
  if (socketpair(AF_UNIX, SOCK_STREAM | SOCK_CLOEXEC, 0, ends) != 0) return refused("socketpair");
  pid_t child = fork_child();
  if (child == 0) {
    give_back_signals(s);
    put_words(s, words);
    snprintf(number, sizeof number, "%d", dup(ends[1]));
    setenv("_FUSE_COMMFD", number, 1);
    if (fchdir(s->place) == 0) execlp("fusermount3", "fusermount3", "-o", words, "--", ".", NULL);
    refused("fusermount3");
    _exit(CANNOT_RUN);
  }
  close(ends[1]);
  s->device = child < 0 ? -1 : received_descriptor(ends[0]);
  close(ends[0]);
  if (child > 0 && waitpid(child, &status, 0) == child && status != 0) say("fusermount3 didn't mount %s", s->mountpoint);
  return s->device >= 0;
}

bool has_ended(const struct supervisor *s) {
  struct pollfd device = {.fd = s->device};
  return poll(&device, 1, 0) == 1 && device.revents & POLLERR;
}

bool mount_store(struct supervisor *s) {
  return (geteuid() == 0 ? mount_as_root(s) : mount_by_fusermount(s)) && note_mount(s);
}

/* By its root, which is open. */
static void detach(const struct supervisor *s, int root) {
  char place[LINE_SIZE];
  say("%s is in use: it is detached, and served until nobody uses it", s->mountpoint);
  snprintf(place, sizeof place, "/proc/self/fd/%d", root);
  _exit(umount2(place, MNT_DETACH) == 0 ? 0 : errno);
}

/* An open root keeps a mount in use. So it is closed before the mount is unmounted by its name in the parent, which nobody can give to
 * another directory while this one is mounted on. */
pid_t start_unmounting(const struct supervisor *s) {
  int root;
  pid_t child = fork_child();
  if (child != 0) return child;
  enter_parent(s);
  const char *name = open_root(s, &root);
  if (!name) {
    say_detached(s);
    _exit(0);
  }
  if (geteuid() != 0) {
    execlp("fusermount3", "fusermount3", "-u", "-z", "--", name, NULL);
    _exit(errno);
  }
  close(root);
  if (umount2(name, UMOUNT_NOFOLLOW) == 0) _exit(0);
  if (errno != EBUSY) _exit(errno);
  if (open_root(s, &root)) detach(s, root);
  _exit(errno);
}
