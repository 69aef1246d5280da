/* fusekeep-mount --restart: the server of a mounted store is replaced by one of the program that is installed now. */
#define _GNU_SOURCE
#include "supervisor.h"
#include <stdlib.h>

int restart_server(const char *operand) {
  static struct answer answer;
  char store[PATH_MAX];
  if (!find_store(operand, store)) return refused(operand), FAILED;
  enum silence silence = ask(store, "restart", NULL, 0, -1, &answer);
  if (silence != ANSWERED) return say_silence(silence, operand, &answer), FAILED;
  char *held = value_of(&answer, "held");
  int printed = printf("server %lld serves; calls waited for %s s\n", number_of(&answer, "server"), held ? held : "?");
  free(held);
  return printed > 0 && fflush(stdout) == 0 ? 0 : FAILED;
}
