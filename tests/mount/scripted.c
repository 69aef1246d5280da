/* An engine that runs a script, the file beside it whose name ends in .bash. An engine is a program, and what fusekeep-mount preloads into
 * it confines it. This one is linked statically, so that nothing is preloaded into it. The script finds the library in PRELOAD, and gives
 * it to the engine that it executes: LD_PRELOAD=$PRELOAD exec ENGINE .. That one ends when it has begun a mount, as one of others may, and
 * the first server is started after it with --resume, unless the script sets FUSEKEEP_DEVICE=$DEVICE, too. */
#define _GNU_SOURCE
#include <limits.h>
#include <stdio.h>
#include <stdlib.h>
#include <string.h>
#include <unistd.h>

enum { MOST_WORDS = 32 };

int main(int argc, char **argv) {
  static char script[PATH_MAX + sizeof ".bash"];
  char *words[MOST_WORDS] = {"bash", script};
  const char *library = getenv("LD_PRELOAD"), *device = getenv("FUSEKEEP_DEVICE");
  ssize_t length = readlink("/proc/self/exe", script, PATH_MAX);
  if (length <= 0 || argc + 2 > MOST_WORDS) return 1;
  strcpy(script + length, ".bash");
  for (int i = 1; i < argc; i++) words[i + 1] = argv[i];
  if (setenv("PRELOAD", library ? library : "", 1) != 0 || setenv("PATH", "/usr/local/bin:/usr/bin:/bin", 1) != 0) return 1;
  if (device && setenv("DEVICE", device, 1) != 0) return 1;
  unsetenv("LD_PRELOAD");
  unsetenv("FUSEKEEP_DEVICE");
  execv("/bin/bash", words);
  perror("/bin/bash");
  return 1;
}
