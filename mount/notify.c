/* What is reported to a service manager that started this program as a service of the type notify (sd_notify(3)). */
#define _GNU_SOURCE
#include "supervisor.h"
#include <stdlib.h>
#include <string.h>
#include <sys/socket.h>
#include <sys/un.h>

/* The socket is a path, or an abstract name, which begins with @. */
void notify_manager(const char *state) {
  struct sockaddr_un to = {.sun_family = AF_UNIX};
  const char *name = getenv("NOTIFY_SOCKET");
  size_t length = name ? strlen(name) : 0;
  if (length < 2 || length >= sizeof to.sun_path || (*name != '/' && *name != '@')) return;
  memcpy(to.sun_path, name, length);
  if (*name == '@') *to.sun_path = '\0';
  int sender = socket(AF_UNIX, SOCK_DGRAM | SOCK_CLOEXEC, 0);
  socklen_t size = (socklen_t)(offsetof(struct sockaddr_un, sun_path) + length);
  if (sender < 0 || sendto(sender, state, strlen(state), MSG_NOSIGNAL, (struct sockaddr *)&to, size) < 0) refused("NOTIFY_SOCKET");
  if (sender >= 0) close(sender);
}
