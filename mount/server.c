/* fusekeep-mount --server: the process number of the server of a mounted store. */
#define _GNU_SOURCE
#include "supervisor.h"

enum { PATIENCE = 5000, NUMBER_SIZE = 64 };        /* milliseconds; bytes */

/* Whether a process is the child of another one, as far as this user may see it. */
static bool is_child_of(pid_t process, pid_t parent) {
  char path[NUMBER_SIZE], line[LINE_SIZE];
  pid_t found = parent;
  snprintf(path, sizeof path, "/proc/%d/status", process);
  FILE *facts = fopen(path, "re");
  if (!facts) return true;
  while (fgets(line, sizeof line, facts) && sscanf(line, "PPid: %d", &found) != 1) continue;
  fclose(facts);
  return found == parent;
}

int print_server(const char *operand) {
  static struct answer answer;
  char store[PATH_MAX];
  if (!find_store(operand, store)) return refused(operand), FAILED;
  enum silence silence = ask(store, "server", NULL, 0, PATIENCE, &answer);
  if (silence != ANSWERED) return say_silence(silence, operand, &answer), FAILED;
  pid_t server = (pid_t)number_of(&answer, "server");
  if (server <= 0 || !is_child_of(server, answer.supervisor)) return say("%s is mounted, but no server runs now", operand), FAILED;
  return printf("%d\n", server) > 0 && fflush(stdout) == 0 ? 0 : FAILED;
}
