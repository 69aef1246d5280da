/* Asks the supervisor of a mount by the socket beside the store. */
#define _GNU_SOURCE
#include "supervisor.h"
#include <errno.h>
#include <fcntl.h>
#include <poll.h>
#include <stdlib.h>
#include <string.h>
#include <sys/socket.h>
#include <sys/un.h>

enum { CONNECT_SECONDS = 5 };

/* A socket is connected to by its descriptor, since a path has 108 bytes at most. */
static int connect_to(const char *path) {
  struct sockaddr_un address = {.sun_family = AF_UNIX};
  struct timeval patience = {.tv_sec = CONNECT_SECONDS};
  int file = open(path, O_PATH | O_NOFOLLOW | O_CLOEXEC);
  if (file < 0) return -1;
  snprintf(address.sun_path, sizeof address.sun_path, "/proc/self/fd/%d", file);
  int connection = socket(AF_UNIX, SOCK_STREAM | SOCK_CLOEXEC, 0);
  setsockopt(connection, SOL_SOCKET, SO_SNDTIMEO, &patience, sizeof patience);
  bool is_connected = connection >= 0 && connect(connection, (struct sockaddr *)&address, sizeof address) == 0;
  int error = errno;
  close(file);
  if (!is_connected && connection >= 0) close(connection);
  errno = error;
  return is_connected ? connection : -1;
}

/* Only root, this user or the owner of the store may answer. */
static bool is_trusted(int connection, const char *store, pid_t *supervisor) {
  struct ucred peer;
  struct stat found;
  socklen_t size = sizeof peer;
  if (getsockopt(connection, SOL_SOCKET, SO_PEERCRED, &peer, &size) != 0) return false;
  *supervisor = peer.pid;
  return peer.uid == 0 || peer.uid == geteuid() || (lstat(store, &found) == 0 && peer.uid == found.st_uid);
}

static bool send_request(int connection, const char *request, const int *files, int count) {
  union { struct cmsghdr head; char bytes[CMSG_SPACE(MOST_FILES * sizeof(int))]; } control = {0};
  char line[REQUEST_SIZE];
  struct iovec piece = {.iov_base = line, .iov_len = (size_t)snprintf(line, sizeof line, "%s\n", request)};
  struct msghdr message = {.msg_iov = &piece, .msg_iovlen = 1};
  size_t bytes = (size_t)count * sizeof *files;
  if (count > 0) {
    message.msg_control = &control;
    message.msg_controllen = CMSG_SPACE(bytes);
    control.head = (struct cmsghdr){.cmsg_len = CMSG_LEN(bytes), .cmsg_level = SOL_SOCKET, .cmsg_type = SCM_RIGHTS};
    memcpy(CMSG_DATA(&control.head), files, bytes);
  }
  return sendmsg(connection, &message, MSG_NOSIGNAL) == (ssize_t)piece.iov_len;
}

/* Reads until the end of the connection. */
static bool receive(int connection, int patience, struct text *text) {
  struct pollfd waits = {.fd = connection, .events = POLLIN};
  long long until = now() + patience;
  text->length = 0;
  for (;;) {
    long long left = patience < 0 ? -1 : until - now();
    if (poll(&waits, 1, left < 0 && patience >= 0 ? 0 : (int)left) <= 0) return false;
    size_t room = sizeof text->bytes - 1 - text->length;
    ssize_t size = room > 0 ? recv(connection, text->bytes + text->length, room, 0) : -1;
    if (size < 0) return false;
    text->length += (size_t)size;
    text->bytes[text->length] = '\0';
    if (size == 0) return true;
  }
}

static bool ends_by(const struct text *text, const char *end) {
  size_t length = strlen(end);
  return text->length >= length && strcmp(text->bytes + text->length - length, end) == 0;
}

static enum silence converse(int connection, const char *request, const int *files, int count, int patience, struct answer *answer) {
  if (!send_request(connection, request, files, count) || !receive(connection, patience, &answer->text)) return NO_ANSWER;
  if (strncmp(answer->text.bytes, "error ", strlen("error ")) == 0) return REFUSED;
  return ends_by(&answer->text, "ok\n") ? ANSWERED : NO_ANSWER;
}

enum silence ask(const char *store, const char *request, const int *files, int count, int patience, struct answer *answer) {
  char path[PATH_SIZE];
  snprintf(path, sizeof path, "%s%s", store, CONTROL_SUFFIX);
  answer->supervisor = 0;
  int connection = connect_to(path);
  if (connection < 0) return errno == ENOENT || errno == ECONNREFUSED ? NOT_MOUNTED : NOT_REACHED;
  bool trusts = is_trusted(connection, store, &answer->supervisor);
  enum silence end = trusts ? converse(connection, request, files, count, patience, answer) : NOT_TRUSTED;
  int error = errno;
  close(connection);
  errno = error;
  return end;
}

void say_silence(enum silence silence, const char *store, const struct answer *answer) {
  char *reason = silence == REFUSED ? value_of(answer, "error") : NULL;
  switch (silence) {
  case ANSWERED: break;
  case NOT_MOUNTED: say("%s isn't mounted", store); break;
  case NOT_REACHED: say("%s%s can't be asked by this user: %s", store, CONTROL_SUFFIX, strerror(errno)); break;
  case NOT_TRUSTED:
    say("%s%s is answered by process %d, which belongs neither to root nor to the owner of the store: it isn't asked",
        store, CONTROL_SUFFIX, answer->supervisor);
    break;
  case NO_ANSWER: say("process %d, which keeps %s mounted, gives no answer", answer->supervisor, store); break;
  case REFUSED: say("%s", reason ? reason : "out of memory"); break;
  }
  free(reason);
}

/* The place of a line's value, or NULL. */
static const char *find_value(const struct answer *answer, const char *name) {
  size_t length = strlen(name);
  for (const char *line = answer->text.bytes; line && *line;) {
    if (strncmp(line, name, length) == 0 && line[length] == ' ') return line + length + 1;
    line = strchr(line, '\n');
    if (line) line++;
  }
  return NULL;
}

static bool is_octal(const char *from) {
  return from[0] == '\\' && from[1] >= '0' && from[1] <= '3' && from[2] >= '0' && from[2] <= '7' && from[3] >= '0' && from[3] <= '7';
}

char *value_of(const struct answer *answer, const char *name) {
  const char *from = find_value(answer, name);
  char *value = from ? malloc(strcspn(from, "\n") + 1) : NULL, *to = value;
  if (!value) return NULL;
  while (*from && *from != '\n') {
    bool is_marked = is_octal(from);
    *to++ = is_marked ? (char)((from[1] - '0') * 64 + (from[2] - '0') * 8 + from[3] - '0') : *from;
    from += is_marked ? 4 : 1;
  }
  *to = '\0';
  return value;
}

long long number_of(const struct answer *answer, const char *name) {
  const char *from = find_value(answer, name);
  return from ? strtoll(from, NULL, 10) : -1;
}
