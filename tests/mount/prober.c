/* An engine that tries what no engine needs, and prints the errors. It is linked dynamically, so that it is confined as the engine is. */
#define _GNU_SOURCE
#include <errno.h>
#include <fcntl.h>
#include <signal.h>
#include <stdio.h>
#include <sys/mman.h>
#include <sys/prctl.h>
#include <sys/socket.h>
#include <sys/stat.h>
#include <unistd.h>

static int error_of(long result) {
  return result < 0 ? errno : 0;
}

/* The error of opening a file beside the store, whose name ends so. */
static int error_beside(const char *store, const char *suffix, int flags) {
  char path[4096];
  snprintf(path, sizeof path, "%s%s", store, suffix);
  return error_of(open(path, flags, 0600));
}

int main(int argc, char **argv) {
  if (argc < 4) return 1;
  fprintf(stderr, "store=%d log=%d", error_beside(argv[3], "", O_RDWR), error_beside(argv[3], "-wal", O_RDWR));
  fprintf(stderr, " data=%d", error_beside(argv[3], "-data", O_RDWR));
  fprintf(stderr, " other=%d new=%d", error_beside(argv[3], "-other", O_RDONLY), error_beside(argv[3], "-new", O_WRONLY | O_CREAT));
  fprintf(stderr, " passwd=%d self=%d", error_of(open("/etc/passwd", O_RDONLY)), error_of(open("/proc/self/mem", O_RDWR)));
  fprintf(stderr, " execve=%d fork=%d", error_of(execl("/bin/true", "true", NULL)), error_of(fork()));
  fprintf(stderr, " socket=%d kill=%d", error_of(socket(AF_INET, SOCK_STREAM, 0)), error_of(kill(getppid(), 0)));
  fprintf(stderr, " unlink=%d prctl=%d", error_of(unlink(argv[3])), error_of(prctl(PR_SET_DUMPABLE, 1)));
  fprintf(stderr, " suid=%d readable=%d", error_of(fchmod(STDERR_FILENO, 04700)), error_of(fchmod(STDERR_FILENO, 0604)));
  fprintf(stderr, " owner=%d signal=%d", error_of(fcntl(STDERR_FILENO, F_SETOWN, getppid())), error_of(fcntl(STDERR_FILENO, F_SETSIG, SIGKILL)));
  fprintf(stderr, " mode=%d", error_of(fchmod(STDERR_FILENO, 0600)));
  fprintf(stderr, " code=%d\n", mmap(NULL, 1, PROT_READ | PROT_EXEC, MAP_PRIVATE | MAP_ANONYMOUS, -1, 0) == MAP_FAILED ? errno : 0);
  return 3;
}
