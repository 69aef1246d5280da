/* The memory in which servers report what they do. It can't change its size, so that no server takes it from this process. */
#define _GNU_SOURCE
#include "supervisor.h"
#include <errno.h>
#include <fcntl.h>
#include <string.h>
#include <sys/mman.h>

enum { SEALS = F_SEAL_GROW | F_SEAL_SHRINK | F_SEAL_SEAL, QUOTED = 256 };
enum { NO_EXECUTION = 8 }; /* MFD_NOEXEC_SEAL of newer headers, which a system may ask for, and which older kernels don't know */

static int make_memory(void) {
  int file = memfd_create("fusekeep-report", MFD_CLOEXEC | MFD_ALLOW_SEALING | NO_EXECUTION);
  return file >= 0 || errno != EINVAL ? file : memfd_create("fusekeep-report", MFD_CLOEXEC | MFD_ALLOW_SEALING);
}

bool make_report(struct supervisor *s) {
  s->report_file = make_memory();
  if (s->report_file < 0 || ftruncate(s->report_file, sizeof *s->report) != 0) return refused("memfd_create");
  if (fcntl(s->report_file, F_ADD_SEALS, SEALS) != 0) return refused("memfd_create");
  void *memory = mmap(NULL, sizeof *s->report, PROT_READ | PROT_WRITE, MAP_SHARED, s->report_file, 0);
  if (memory == MAP_FAILED) return refused("mmap");
  s->report = memory;
  return true;
}

struct totals totals_of(const struct supervisor *s) {
  const struct counts *counts = &s->report->counts;
  struct totals totals = s->totals;
  totals.requests += counts->requests;
  totals.answers += counts->answers;
  totals.groups += counts->groups;
  totals.flushes += counts->flushes;
  return totals;
}

void clear_report(struct supervisor *s) {
  s->totals = totals_of(s);
  memset((void *)s->report, 0, offsetof(struct report, is_single));
}

const char *name_of_work(const struct supervisor *s) {
  static char text[LINE_SIZE];
  char opcode[QUOTED], name[QUOTED];
  const struct report *report = s->report;
  size_t length = report->name_length;
  const char *known = name_of_opcode(report->opcode);
  snprintf(opcode, sizeof opcode, "opcode %u", report->opcode);
  escape(name, sizeof name, report->name, length < WORK_NAME_SIZE ? length : WORK_NAME_SIZE, "\"\\");
  int used = snprintf(text, sizeof text, "%s id=%llu node=%llu", known ? known : opcode,
                      (unsigned long long)report->id, (unsigned long long)report->node);
  if (*name) snprintf(text + used, sizeof text - (size_t)used, " \"%s\"", name);
  return text;
}
