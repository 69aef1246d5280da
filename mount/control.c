/* The socket beside a store, by which its mount is asked. A connection carries one request and its answer.
 *
 * The request is a line: `server`, `status`, `restart`, or `backup`, with which descriptors of files come. The answer is lines of a name, a
 * blank and a value. Its last line is `ok`, or `error` with the reason. In a value a backslash stands before three octal digits.
 *
 * Root, the user who mounted and the owner of the store may ask. Nothing here waits: a client that is slow is dropped. */
#define _GNU_SOURCE
#include "supervisor.h"
#include <errno.h>
#include <fcntl.h>
#include <stdarg.h>
#include <stdint.h>
#include <string.h>
#include <sys/epoll.h>
#include <sys/socket.h>
#include <sys/timerfd.h>
#include <sys/un.h>

enum { PATIENCE = 2000, TICK = 50 };               /* milliseconds: for a request; between two looks at what is due */
enum { LISTENER = MOST_CLIENTS, TIMER, PLACES };   /* of events, after those of clients */
enum { NAME_SIZE = 32 };

static int refuse_opening(const struct supervisor *s) {
  say("%s can't be made: %s; the mount goes on without it, and can't be asked", beside(s, CONTROL_SUFFIX), strerror(errno));
  return -1;
}

/* The owner of a store may ask too, so the socket belongs to it. */
static bool give_to_owner(const struct supervisor *s, const char *name) {
  struct stat made;
  int file = openat(s->folder, name, O_PATH | O_NOFOLLOW | O_CLOEXEC);
  bool is_made = file >= 0 && fstat(file, &made) == 0 && S_ISSOCK(made.st_mode) && made.st_nlink == 1 && made.st_uid == geteuid();
  bool is_given = is_made && (geteuid() != 0 || fchownat(file, "", s->owner, s->group, AT_EMPTY_PATH) == 0);
  if (file >= 0) close(file);
  return is_given;
}

/* A path of a socket has 108 bytes, so the folder is named by its descriptor, and the socket gets its name when it listens. That name
 * replaces the one of a dead process. */
static bool bind_beside(struct supervisor *s, int listener) {
  struct sockaddr_un address = {.sun_family = AF_UNIX};
  char made[NAME_SIZE];
  struct stat found;
  snprintf(made, sizeof made, ".fusekeep-%d", getpid());
  snprintf(address.sun_path, sizeof address.sun_path, "/proc/self/fd/%d/%s", s->folder, made);
  unlinkat(s->folder, made, 0);
  mode_t before = umask(0177);
  bool is_bound = bind(listener, (struct sockaddr *)&address, sizeof address) == 0;
  umask(before);
  if (!is_bound) return false;
  bool is_placed = listen(listener, MOST_CLIENTS) == 0 && give_to_owner(s, made) &&
                   fstatat(s->folder, made, &found, AT_SYMLINK_NOFOLLOW) == 0 && S_ISSOCK(found.st_mode) &&
                   renameat(s->folder, made, s->folder, name_beside(s, CONTROL_SUFFIX)) == 0;
  if (!is_placed) return unlinkat(s->folder, made, 0), false;
  s->control.device = found.st_dev;
  s->control.inode = found.st_ino;
  return true;
}

static bool watch_socket(const struct supervisor *s, int socket, uint32_t place) {
  struct epoll_event event = {.events = EPOLLIN | EPOLLRDHUP, .data.u32 = place};
  return epoll_ctl(s->control.events, EPOLL_CTL_ADD, socket, &event) == 0;
}

/* Makes what is needed beside the socket itself. */
static bool prepare(struct supervisor *s) {
  struct control *control = &s->control;
  if (control->is_open) return true;
  for (int i = 0; i < MOST_CLIENTS; i++) control->clients[i].socket = -1;
  control->listener = -1;
  control->events = epoll_create1(EPOLL_CLOEXEC);
  control->timer = timerfd_create(CLOCK_MONOTONIC, TFD_CLOEXEC | TFD_NONBLOCK);
  control->is_open = control->events >= 0 && control->timer >= 0 && watch_socket(s, control->timer, TIMER);
  if (control->is_open) return true;
  if (control->timer >= 0) close(control->timer);
  if (control->events >= 0) close(control->events);
  control->events = -1;
  return false;
}

static bool is_in_place(const struct supervisor *s) {
  struct stat found;
  return s->control.listener >= 0 && fstatat(s->folder, name_beside(s, CONTROL_SUFFIX), &found, AT_SYMLINK_NOFOLLOW) == 0 &&
         found.st_dev == s->control.device && found.st_ino == s->control.inode;
}

static int listen_beside(struct supervisor *s) {
  int listener = socket(AF_UNIX, SOCK_STREAM | SOCK_CLOEXEC | SOCK_NONBLOCK, 0);
  if (listener < 0) return refuse_opening(s);
  if (bind_beside(s, listener) && watch_socket(s, listener, LISTENER)) return listener;
  refuse_opening(s);
  close(listener);
  return -1;
}

void keep_control(struct supervisor *s) {
  if (!prepare(s)) {
    refuse_opening(s);
    return;
  }
  if (is_in_place(s)) return;
  if (s->control.listener >= 0) close(s->control.listener);
  s->control.listener = listen_beside(s);
}

void close_control(struct supervisor *s) {
  if (s->control.is_open && is_in_place(s)) remove_beside(s, CONTROL_SUFFIX);
}

static bool may_ask(const struct supervisor *s, int socket) {
  struct ucred peer;
  socklen_t size = sizeof peer;
  if (getsockopt(socket, SOL_SOCKET, SO_PEERCRED, &peer, &size) != 0) return false;
  return peer.uid == 0 || peer.uid == geteuid() || peer.uid == s->owner;
}

/* Ticks while clients are connected or something is due. */
static void set_timer(const struct supervisor *s) {
  bool is_busy = is_working(s);
  for (int i = 0; i < MOST_CLIENTS; i++) is_busy = is_busy || s->control.clients[i].socket >= 0;
  struct timespec tick = {.tv_nsec = is_busy ? TICK * 1000000L : 0};
  struct itimerspec each = {.it_interval = tick, .it_value = tick};
  timerfd_settime(s->control.timer, 0, &each, NULL);
}

static void close_client(struct supervisor *s, struct client *client) {
  client_left(s, client);
  epoll_ctl(s->control.events, EPOLL_CTL_DEL, client->socket, NULL);
  shutdown(client->socket, SHUT_RDWR);
  close(client->socket);
  while (client->count > 0) close(client->files[--client->count]);
  client->socket = -1;
  set_timer(s);
}

void answer_client(struct supervisor *s, struct client *client, const struct text *answer) {
  ssize_t sent = send(client->socket, answer->bytes, answer->length, MSG_DONTWAIT | MSG_NOSIGNAL);
  if (sent >= 0 && (size_t)sent < answer->length) say("an answer was cut");
  close_client(s, client);
}

void refuse_client(struct supervisor *s, struct client *client, const char *form, ...) {
  static struct text answer;
  char reason[LINE_SIZE + PATH_MAX];
  va_list words;
  va_start(words, form);
  vsnprintf(reason, sizeof reason, form, words);
  va_end(words);
  answer.length = 0;
  put_value(&answer, "error", reason);
  answer_client(s, client, &answer);
}

static void take_client(struct supervisor *s) {
  int socket = accept4(s->control.listener, NULL, NULL, SOCK_CLOEXEC | SOCK_NONBLOCK);
  if (socket < 0) return;
  uint32_t place = 0;
  while (place < MOST_CLIENTS && s->control.clients[place].socket >= 0) place++;
  if (place == MOST_CLIENTS || !may_ask(s, socket) || !watch_socket(s, socket, place)) {
    close(socket);
    return;
  }
  s->control.clients[place] = (struct client){.socket = socket, .until = now() + PATIENCE};
  set_timer(s);
}

/* Keeps the descriptors that came with a message. */
static void take_files(struct client *client, struct msghdr *message) {
  for (struct cmsghdr *head = CMSG_FIRSTHDR(message); head; head = CMSG_NXTHDR(message, head)) {
    if (head->cmsg_level != SOL_SOCKET || head->cmsg_type != SCM_RIGHTS) continue;
    size_t count = (head->cmsg_len - CMSG_LEN(0)) / sizeof(int);
    for (size_t i = 0; i < count; i++) {
      int file;
      memcpy(&file, CMSG_DATA(head) + i * sizeof file, sizeof file);
      if (client->count < MOST_FILES) client->files[client->count++] = file;
      else close(file);
    }
  }
}

static void perform(struct supervisor *s, struct client *client) {
  static struct text answer;
  answer.length = 0;
  bool is_status = strcmp(client->request, "status") == 0, is_server = strcmp(client->request, "server") == 0;
  if (begin_work(s, client)) return;
  if (is_status) put_status(s, &answer);
  if (is_server) put(&answer, "server %d\n", s->server > 0 ? s->server : 0);
  if (is_status || is_server) put(&answer, "ok\n");
  else put_value(&answer, "error", "the request isn't known");
  answer_client(s, client, &answer);
}

/* What came of a client: a part of its request, all of it, or its end. A client that has asked sends nothing more. */
enum heard { PART, WHOLE, END };

static enum heard hear(struct client *client) {
  union { struct cmsghdr head; char bytes[CMSG_SPACE(MOST_FILES * sizeof(int))]; } control;
  struct iovec piece = {.iov_base = client->request + client->length, .iov_len = sizeof client->request - client->length};
  struct msghdr message = {.msg_iov = &piece, .msg_iovlen = 1, .msg_control = &control, .msg_controllen = sizeof control};
  if (client->until == 0) return END;
  ssize_t size = recvmsg(client->socket, &message, MSG_CMSG_CLOEXEC | MSG_DONTWAIT);
  if (size < 0 && errno == EAGAIN) return PART;
  if (size <= 0) return END;
  take_files(client, &message);
  client->length += (size_t)size;
  char *end = memchr(client->request, '\n', client->length);
  if (!end) return client->length < sizeof client->request ? PART : END;
  *end = '\0';
  client->until = 0;
  return WHOLE;
}

static void hear_client(struct supervisor *s, struct client *client) {
  enum heard heard = hear(client);
  if (heard == WHOLE) perform(s, client);
  if (heard == END) close_client(s, client);
}

static void tick(struct supervisor *s) {
  uint64_t ticks;
  if (read(s->control.timer, &ticks, sizeof ticks) != sizeof ticks) return;
  for (int i = 0; i < MOST_CLIENTS; i++) {
    struct client *client = &s->control.clients[i];
    if (client->socket >= 0 && client->until != 0 && now() >= client->until) close_client(s, client);
  }
  go_on_working(s);
  set_timer(s);
}

void serve_control(struct supervisor *s) {
  struct epoll_event events[PLACES];
  int count = epoll_wait(s->control.events, events, PLACES, 0);
  for (int i = 0; i < count; i++) {
    uint32_t place = events[i].data.u32;
    if (place == LISTENER) take_client(s);
    else if (place == TIMER) tick(s);
    else if (s->control.clients[place].socket >= 0) hear_client(s, &s->control.clients[place]);
  }
}
