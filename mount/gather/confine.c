/* Confines the engine into which this library is preloaded, after the loader has done its work and before `main`. It opens the store's
 * file, its log, its contents and the folder of these, and no other file, where the kernel has Landlock; and it makes the system calls that
 * stand below, and no other one. A call that doesn't returns ENOSYS, so that a C library which tries a newer one takes the older. */
#define _GNU_SOURCE
#include "gather.h"
#include <errno.h>
#include <fcntl.h>
#include <linux/audit.h>
#include <linux/filter.h>
#include <linux/landlock.h>
#include <linux/seccomp.h>
#include <stdint.h>
#include <stdio.h>
#include <stdlib.h>
#include <string.h>
#include <sys/mman.h>
#include <sys/prctl.h>
#include <sys/stat.h>
#include <sys/syscall.h>
#include <unistd.h>

enum { CANNOT_RUN = 127, PATH_SIZE = 4096 + 16 };

__attribute__((noreturn)) static void fail(const char *what) {
  dprintf(STDERR_FILENO, "the engine can't be confined: %s: %s\n", what, strerror(errno));
  _exit(CANNOT_RUN);
}

/* Landlock. */

/* The attributes of a set of rules, which grew with the versions of Landlock: the rights that are taken away. Older headers lack some. */
struct taken {
  uint64_t files, net, scopes;
};

static const uint64_t use_of_file = LANDLOCK_ACCESS_FS_READ_FILE | LANDLOCK_ACCESS_FS_WRITE_FILE, truncation = 1 << 14;

/* Makes a set that takes away all rights which this version knows. */
static int make_rules(int version) {
  struct taken taken = {.files = (1 << 13) - 1, .net = 3, .scopes = 3};
  if (version >= 2) taken.files |= 1 << 13;
  if (version >= 3) taken.files |= truncation;
  if (version >= 5) taken.files |= 1 << 15;
  size_t size = version >= 6 ? sizeof taken : version >= 4 ? offsetof(struct taken, scopes) : offsetof(struct taken, net);
  return (int)syscall(SYS_landlock_create_ruleset, &taken, size, 0);
}

/* Gives rights back for a file or a folder. A log that isn't there has none. */
static void allow(int rules, const char *path, uint64_t rights) {
  int file = open(path, O_PATH | O_NOFOLLOW | O_CLOEXEC);
  struct landlock_path_beneath_attr rule = {.allowed_access = rights, .parent_fd = file};
  if (file < 0 && errno == ENOENT) return;
  if (file < 0 || syscall(SYS_landlock_add_rule, rules, LANDLOCK_RULE_PATH_BENEATH, &rule, 0) != 0) fail(path);
  close(file);
}

static void allow_files(int rules, const char *store, uint64_t rights) {
  char path[PATH_SIZE];
  snprintf(path, sizeof path, "%s-wal", store);
  allow(rules, path, rights);
  snprintf(path, sizeof path, "%s-data", store);
  if (has_held_data()) allow(rules, path, rights);
  snprintf(path, sizeof path, "%s", store);
  allow(rules, path, rights);
  *strrchr(path, '/') = '\0';
  allow(rules, *path ? path : "/", LANDLOCK_ACCESS_FS_READ_DIR);
}

static void confine_to_files(const char *store) {
  int version = (int)syscall(SYS_landlock_create_ruleset, NULL, 0, LANDLOCK_CREATE_RULESET_VERSION);
  if (version < 0) return;
  int rules = make_rules(version);
  if (rules < 0) fail("landlock");
  allow_files(rules, store, version >= 3 ? use_of_file | truncation : use_of_file);
  if (syscall(SYS_landlock_restrict_self, rules, 0) != 0) fail("landlock");
  close(rules);
}

/* System calls. */

static const int free_calls[] = {
  SYS_read, SYS_write, SYS_writev, SYS_pread64, SYS_pwrite64, SYS_poll, SYS_fdatasync, SYS_fsync, SYS_ftruncate, SYS_fadvise64,
  SYS_openat, SYS_close, SYS_statx, SYS_fstat, SYS_newfstatat, SYS_readlink, SYS_lseek, SYS_fcntl, SYS_fchown,
  SYS_brk, SYS_munmap, SYS_mremap, SYS_madvise, SYS_getrandom, SYS_clock_gettime, SYS_clock_nanosleep, SYS_restart_syscall,
  SYS_rt_sigaction, SYS_rt_sigprocmask, SYS_rt_sigreturn, SYS_getpid, SYS_gettid, SYS_exit, SYS_exit_group,
};

enum { FREE_CALLS = sizeof free_calls / sizeof *free_calls, OTHER_STEPS = 64 };

struct program {
  struct sock_filter steps[2 * FREE_CALLS + OTHER_STEPS];
  unsigned short count;
};

static void put(struct program *program, uint16_t code, uint32_t value, uint8_t if_true, uint8_t if_false) {
  program->steps[program->count++] = (struct sock_filter){code, if_true, if_false, value};
}

static void put_result(struct program *program, uint32_t result) {
  put(program, BPF_RET | BPF_K, result, 0, 0);
}

/* Allows a call. */
static void put_call(struct program *program, int number) {
  put(program, BPF_JMP | BPF_JEQ | BPF_K, (uint32_t)number, 0, 1);
  put_result(program, SECCOMP_RET_ALLOW);
}

/* Allows a call whose argument passes a test, and refuses it else. */
static void put_call_if(struct program *program, int number, int argument, uint16_t test, uint32_t value, bool passes) {
  put(program, BPF_JMP | BPF_JEQ | BPF_K, (uint32_t)number, 0, 4);
  put(program, BPF_LD | BPF_W | BPF_ABS, (uint32_t)(offsetof(struct seccomp_data, args) + 8 * (size_t)argument), 0, 0);
  put(program, BPF_JMP | BPF_K | test, value, passes ? 0 : 1, passes ? 1 : 0);
  put_result(program, SECCOMP_RET_ALLOW);
  put_result(program, SECCOMP_RET_ERRNO | EPERM);
}

/* Refuses a call whose argument has this value. */
static void put_refusal(struct program *program, int number, int argument, uint32_t value) {
  put(program, BPF_JMP | BPF_JEQ | BPF_K, (uint32_t)number, 0, 4);
  put(program, BPF_LD | BPF_W | BPF_ABS, (uint32_t)(offsetof(struct seccomp_data, args) + 8 * (size_t)argument), 0, 0);
  put(program, BPF_JMP | BPF_JEQ | BPF_K, value, 0, 1);
  put_result(program, SECCOMP_RET_ERRNO | EPERM);
  put(program, BPF_LD | BPF_W | BPF_ABS, offsetof(struct seccomp_data, nr), 0, 0);
}

/* Memory becomes no code, signals go to this process alone, also those of fcntl(2), and no file becomes a program or one that others may
 * open. The first server receives the device, in the place of its standard input and output. */
static void confine_to_calls(void) {
  static const uint32_t signalling[] = {F_SETOWN, F_SETOWN_EX, F_SETSIG};
  static struct program program;
  struct sock_fprog filter = {.filter = program.steps};
  put(&program, BPF_LD | BPF_W | BPF_ABS, offsetof(struct seccomp_data, arch), 0, 0);
  put(&program, BPF_JMP | BPF_JEQ | BPF_K, AUDIT_ARCH_X86_64, 1, 0);
  put_result(&program, SECCOMP_RET_KILL_PROCESS);
  put(&program, BPF_LD | BPF_W | BPF_ABS, offsetof(struct seccomp_data, nr), 0, 0);
  for (size_t i = 0; i < sizeof signalling / sizeof *signalling; i++) put_refusal(&program, SYS_fcntl, 1, signalling[i]);
  for (size_t i = 0; i < FREE_CALLS; i++) put_call(&program, free_calls[i]);
  if (is_ordered()) put_call(&program, SYS_fstatfs);
  if (is_ordered()) put_call_if(&program, SYS_fallocate, 1, BPF_JEQ, FALLOC_FL_ZERO_RANGE, true);
  if (awaits_device()) put_call_if(&program, SYS_recvmsg, 0, BPF_JEQ, (uint32_t)socket_of_device(), true);
  if (awaits_device()) put_call_if(&program, SYS_dup2, 1, BPF_JGT, STDOUT_FILENO, false);
  put_call_if(&program, SYS_mmap, 2, BPF_JSET, PROT_EXEC, false);
  put_call_if(&program, SYS_mprotect, 2, BPF_JSET, PROT_EXEC, false);
  put_call_if(&program, SYS_fchmod, 1, BPF_JSET, (uint32_t)~(S_IRUSR | S_IWUSR), false);
  put_call_if(&program, SYS_tgkill, 0, BPF_JEQ, (uint32_t)getpid(), true);
  put_result(&program, SECCOMP_RET_ERRNO | ENOSYS);
  filter.len = program.count;
  if (prctl(PR_SET_SECCOMP, SECCOMP_MODE_FILTER, &filter) != 0) fail("seccomp");
}

/* Its name is that of the descriptor by which it was executed, under older kernels. */
__attribute__((constructor)) static void confine(void) {
  const char *store = getenv(STORE_VARIABLE);
  if (!store) return;
  prctl(PR_SET_NAME, "fusekeep");
  if (prctl(PR_SET_DUMPABLE, 0) != 0) fail("dumpable");
  confine_to_files(store);
  confine_to_calls();
}
