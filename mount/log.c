/* The system's log. Whoever writes it may wait for a call on the mount, such as one that keeps its files there. So no line waits for it. */
#define _GNU_SOURCE
#include "supervisor.h"
#include <string.h>
#include <sys/socket.h>
#include <sys/un.h>
#include <syslog.h>

enum { TIME_SIZE = 32, LOGGED_SIZE = 1 << 16 };    /* bytes */

/* Sends a message, with the zero at its end where the log reads a stream. */
static bool send_to_log(int kind, const char *message, size_t length) {
  static const struct sockaddr_un address = {.sun_family = AF_UNIX, .sun_path = "/dev/log"};
  int log = socket(AF_UNIX, kind | SOCK_CLOEXEC | SOCK_NONBLOCK, 0);
  bool is_sent = log >= 0 && connect(log, (const struct sockaddr *)&address, sizeof address) == 0 &&
                 send(log, message, length, MSG_NOSIGNAL) == (ssize_t)length;
  if (log >= 0) close(log);
  return is_sent;
}

bool log_line(const char *line) {
  static char message[LOGGED_SIZE];
  char moment[TIME_SIZE];
  struct tm parts;
  time_t at = time(NULL);
  strftime(moment, sizeof moment, "%b %e %H:%M:%S", localtime_r(&at, &parts));
  snprintf(message, sizeof message, "<%d>%s fusekeep-mount[%d]: %s", LOG_DAEMON | LOG_NOTICE, moment, getpid(), line);
  return send_to_log(SOCK_DGRAM, message, strlen(message)) || send_to_log(SOCK_STREAM, message, strlen(message) + 1);
}
