/* Mounts a store, and keeps the mount alive when its server dies: this process holds the descriptor of the device, and starts
 * `fusekeep serve` over it again whenever the server ends, until the connection has ended. docs/RUNNING.md says how it is used. */
#define _GNU_SOURCE
#include "supervisor.h"
#include <errno.h>
#include <fcntl.h>
#include <poll.h>
#include <stdarg.h>
#include <stdlib.h>
#include <string.h>
#include <sys/auxv.h>
#include <sys/mount.h>
#include <sys/signalfd.h>
#include <sys/wait.h>

enum { LOOK_PAUSE = 10, LATER_LOOK_PAUSE = 100 }; /* milliseconds */

static const struct supervisor *supervised; /* NULL until the mount is made */
static bool in_background;

/* Whether standard error takes a line at once. Its reader may wait for the mount. */
static bool takes_line(void) {
  struct pollfd out = {.fd = STDERR_FILENO, .events = POLLOUT};
  return poll(&out, 1, 0) != 0;
}

void say(const char *form, ...) {
  char words[LINE_SIZE + 3 * PATH_MAX];
  static char line[ESCAPED_BYTE * sizeof words];
  int error = errno;
  va_list values;
  va_start(values, form);
  vsnprintf(words, sizeof words, form, values);
  va_end(values);
  escape(line, sizeof line, words, strlen(words), "");
  bool is_taken = in_background ? log_line(line) : !supervised || takes_line();
  if (!is_taken) list_line(supervised, line);
  else if (!in_background) dprintf(STDERR_FILENO, "fusekeep-mount: %s\n", line);
  errno = error;
}

bool refused(const char *what) {
  say("%s: %s", what, strerror(errno));
  return false;
}

long long now(void) {
  struct timespec at;
  clock_gettime(CLOCK_MONOTONIC, &at);
  return at.tv_sec * 1000LL + at.tv_nsec / 1000000;
}

/* Asks for the root's attributes, which are answered after the first INIT. */
static pid_t start_probe(const struct supervisor *s) {
  struct stat found;
  int root;
  pid_t child = fork_child();
  if (child != 0) return child;
  enter_parent(s);
  if (!open_root(s, &root)) _exit(ENOTCONN);
  _exit(fstatat(root, "", &found, AT_EMPTY_PATH) == 0 ? 0 : errno);
}

/* Supervision. */

/* Says how a server ended, and when the next one runs. */
static void say_end(const struct supervisor *s, int status, long long pause) {
  const char *how = ending(s, status);
  if (has_ended(s)) say("server %d ended, %s", s->server, how);
  else if (s->failed_lives < MOST_FAILED_LIVES) say("server %d ended, %s; the next one runs in %lld ms", s->server, how, pause);
}


/* The time until the server was ready goes into the line of the last death. */
static void note_restart(struct supervisor *s) {
  if (asked_at(s) != 0) write_death(s, asked_at(s) - s->death.ended);
}

/* A server ended. */
static void server_ended(struct supervisor *s, int status) {
  note_restart(s);
  note_commits(s);
  if (ended_for_work(s, status)) return;
  if (status != 0) note_death(s, status);
  s->last_status = status;
  if (!WIFSIGNALED(status) && !has_ended(s) && lacks_room(s)) {
    s->next_start = now() + (use_reserve(s) ? 0 : FULL_PAUSE);
  } else {
    long long pause = count_life(s, status);
    if (!was_killed(status) && s->report->lost == 0) blame_request(s);
    s->next_start = now() + pause;
    say_end(s, status, pause);
  }
  s->server = 0;
}

/* What is there when a server begins to serve. */
static void prepare(struct supervisor *s) {
  keep_control(s);
  share_room(s);
  s->started = now();
  s->sight = (struct sight){.since = s->started};
}

static void start_server(struct supervisor *s) {
  if (is_at_rest(s) || !can_start(s)) {
    s->next_start = now() + FULL_PAUSE;
    return;
  }
  prepare(s);
  clear_report(s);
  pid_t server = start_engine(s, "--resume", s->device);
  s->server = server > 0 ? server : 0;
  if (server > 0) s->history.servers++;
  else s->next_start = now() + FULL_PAUSE;
}

/* The engine that has begun the mount is its first server. If it has ended, there is another one. */
static void start_first(struct supervisor *s) {
  if (s->server <= 0) {
    start_server(s);
    return;
  }
  prepare(s);
  s->history.servers++;
  give_device(s);
  look_at_files(s);
}

/* What is looked for while a server runs: that it has asked for the pending requests, that it goes on, and that there is room again.
 * Then the next server gets what this one didn't. */
static void look_at_server(struct supervisor *s) {
  keep_reserve(s);
  watch_server(s);
  if (asked_at(s) != 0) note_restart(s);
  if (look_for_room(s)) kill(s->server, SIGKILL);
}

/* Leaves the folder and, for the background, the session in which this process was started, before it has children. */
static bool leave_place(const struct supervisor *s) {
  if (!s->foreground && setsid() < 0) return refused("setsid");
  return chdir("/") == 0 || refused("/");
}

/* Reports that the mount is ready, and continues in the background. Later lines go to the system's log. */
static bool leave_terminal(const struct supervisor *s) {
  int null = open("/dev/null", O_RDWR | O_CLOEXEC);
  if (null < 0) return refused("background");
  for (int standard = STDIN_FILENO; standard <= STDERR_FILENO; standard++)
    if (dup2(null, standard) < 0) return refused("background");
  close(null);
  in_background = true;
  return write(s->readiness, "", 1) == 1 && close(s->readiness) == 0;
}

/* Unmounts, unless that was done before. */
static void stop(struct supervisor *s) {
  if (s->probe > 0) kill(s->probe, SIGKILL);
  if (s->unmounter == 0 && !s->is_unmounted) s->unmounter = start_unmounting(s);
  if (s->unmounter < 0) s->unmounter = 0;
}

/* The probe has the root's attributes, or an error. */
static void probe_ended(struct supervisor *s, int status) {
  s->probe = 0;
  if (WIFSIGNALED(status) && !s->stop_requested) {
    say("the process that asked for the root was killed by signal %d: another one asks", WTERMSIG(status));
    s->probe = start_probe(s);
    if (s->probe > 0) return;
  }
  s->ready = status == 0;
  if (!s->ready && !s->stop_requested) say("%s doesn't answer: %s", s->mountpoint, strerror(WEXITSTATUS(status)));
  if (s->ready && s->foreground) say("%s is mounted on %s", s->store, s->mountpoint), notify_manager("READY=1");
  if (!s->ready || (!s->foreground && !leave_terminal(s))) stop(s);
}

static void unmounter_ended(struct supervisor *s, int status) {
  s->unmounter = 0;
  s->is_unmounted = status == 0;
  const char *why = geteuid() == 0 ? strerror(WEXITSTATUS(status)) : "fusermount3 failed";
  if (status != 0 && !has_ended(s)) say("%s can't be unmounted: %s", s->mountpoint, why);
}

static void reap(struct supervisor *s) {
  int status;
  for (pid_t child; (child = waitpid(-1, &status, WNOHANG)) > 0;) {
    if (child == s->server) server_ended(s, status);
    else if (child == s->probe) probe_ended(s, status);
    else if (child == s->unmounter) unmounter_ended(s, status);
    else if (!has_flushed(s, child, status)) has_copied(s, child, status);
  }
  look_at_stop(s);
}

/* The milliseconds until this process must look after its server; below 0 where only events wake it. */
static int pause_for_server(const struct supervisor *s) {
  long long until = s->next_start - now();
  if (s->server == 0 && s->stop_requested && until > SHORT_LIFE) return SHORT_LIFE;
  if (s->server == 0) return until > 0 ? (int)until : 0;
  if (asked_at(s) == 0) return now() - s->started < SHORT_LIFE ? LOOK_PAUSE : LATER_LOOK_PAUSE;
  int pause = pause_of_watchdog(s);
  if (waits_for_room(s)) return pause < 0 || pause > SHORT_LIFE ? SHORT_LIFE : pause;
  return pause < 0 && !s->has_reserve ? FULL_PAUSE : pause;
}

/* The milliseconds until this process must look for itself; below 0 where only events wake it. */
static int pause_before_look(const struct supervisor *s) {
  int server = pause_for_server(s), flush = pause_before_flush(s);
  return flush >= 0 && (server < 0 || flush < server) ? flush : server;
}

static void take_signal(struct supervisor *s) {
  struct signalfd_siginfo event;
  if (read(s->signals, &event, sizeof event) != sizeof event) return;
  if (event.ssi_signo == SIGCHLD) {
    reap(s);
  } else {
    if (!s->stop_requested) s->stop_asked = now();
    s->stop_requested = true;
    stop(s);
  }
}

/* Waits for a signal, for a change of the store's files, for a request and, while no server runs, for the end of the connection and for
 * the time of the next server. While a server runs the device isn't polled, since each request would wake this process. */
static void await_event(struct supervisor *s) {
  struct pollfd awaited[] = {{.fd = s->signals, .events = POLLIN}, {.fd = s->watch, .events = POLLIN},
                             {.fd = s->control.events, .events = POLLIN}, {.fd = s->device}};
  int count = poll(awaited, s->server ? 3 : 4, pause_before_look(s));
  if (count > 0 && awaited[0].revents & POLLIN) take_signal(s);
  if (count > 0 && awaited[1].revents & POLLIN) look_at_files(s);
  if (count > 0 && awaited[2].revents & POLLIN) serve_control(s);
  if (s->server > 0) look_at_server(s);
  flush_late(s);
}

static void say_giving_up(struct supervisor *s) {
  static const char fault[] = "ended by themselves before the kernel took an answer";
  if (s->trouble == REMOVED) {
    say("gave up: %s was removed", beside(s, s->troubled));
    return;
  }
  if (s->has_hole) {
    say("gave up: a flush of %s failed, and changes that were acknowledged can't be read again", beside(s, LOG_SUFFIX));
    add_to_death(s, "gave up: acknowledged changes are lost");
    return;
  }
  say("gave up: %d servers in a row %s, the last one with %s", s->failed_lives, fault, ending(s, s->last_status));
  add_to_death(s, "gave up: %d servers in a row %s", s->failed_lives, fault);
}

/* Closes the last descriptor, which ends the connection and all waiting calls. A mount that was ready stays in its place and
 * answers with errors, so that nobody mistakes the directory under it for the store. */
static int give_up(struct supervisor *s) {
  say_giving_up(s);
  explain(s);
  write_death(s, -1);
  close(s->device);
  flush_last(s);
  if (s->ready || s->is_unmounted) return FAILED;
  if (s->probe > 0) waitpid(s->probe, NULL, 0);
  pid_t child = start_unmounting(s);
  if (child > 0) waitpid(child, NULL, 0);
  return FAILED;
}

/* Ends the connection of a mount that was to end, with the calls that wait for room. */
static void end_waiting_calls(struct supervisor *s) {
  say("%s has no room left: the calls that wait for room end with an error", folder_of(s));
  if (s->server > 0 && kill(s->server, SIGKILL) == 0) waitpid(s->server, NULL, 0);
  s->server = 0;
  close(s->device);
}

/* Children that look at the mount, or unmount it, have the store's folder open. */
static void end_children(const struct supervisor *s) {
  const pid_t children[] = {s->probe, s->unmounter};
  for (size_t i = 0; i < sizeof children / sizeof *children; i++)
    if (children[i] > 0 && kill(children[i], SIGKILL) == 0) waitpid(children[i], NULL, 0);
}

static int supervise(struct supervisor *s) {
  supervised = s;
  begin_list(s);
  clock_gettime(CLOCK_REALTIME, &s->history.mounted);
  start_first(s);
  s->probe = start_probe(s);
  if (s->probe < 0) stop(s);
  reap(s);
  while (!is_stuck(s)) {
    if (s->server == 0 && has_ended(s)) break;
    if (s->failed_lives == MOST_FAILED_LIVES || (s->server == 0 && (s->trouble == REMOVED || s->has_hole))) return give_up(s);
    if (s->server == 0 && now() >= s->next_start) start_server(s);
    await_event(s);
  }
  if (is_stuck(s)) end_waiting_calls(s);
  leave_reserve(s);
  end_children(s);
  flush_last(s);
  write_death(s, -1);
  say("the connection of %s has ended", s->mountpoint);
  return s->ready || s->stop_requested ? 0 : FAILED;
}

/* From here on only `await_event` takes signals. A SIGHUP that is ignored, as by nohup(1), stays ignored. */
static bool take_signals(struct supervisor *s) {
  struct sigaction hangup;
  sigset_t awaited;
  sigemptyset(&awaited);
  sigaddset(&awaited, SIGCHLD);
  if (sigaction(SIGHUP, NULL, &hangup) == 0 && hangup.sa_handler != SIG_IGN) sigaddset(&awaited, SIGHUP);
  sigaddset(&awaited, SIGINT);
  sigaddset(&awaited, SIGTERM);
  s->signals = signalfd(-1, &awaited, SFD_CLOEXEC);
  return (s->signals >= 0 && sigprocmask(SIG_BLOCK, &awaited, NULL) == 0) || refused("signals");
}

static int run(struct supervisor *s, const char *store, const char *mountpoint) {
  if (!find_engine(s) || !find_library(s) || !make_report(s) || !find_mountpoint(s, mountpoint)) return FAILED;
  int status = hold_store(s, store) && leave_place(s) ? begin_in_store(s) : FAILED;
  if (status == 0) say_unconfined(s), watch_store(s);
  if (status == 0 && take_signals(s) && mount_store(s)) {
    status = supervise(s);
    drop_data(s);
    close_control(s);
    return status;
  }
  dismiss_server(s);
  leave_no_trace(s);
  return status == 0 ? FAILED : status;
}

/* Waits until the background process reports that the mount is ready, or has ended. */
static int await_readiness(pid_t child, int readiness) {
  char byte;
  int status;
  if (read(readiness, &byte, 1) == 1) return 0;
  if (waitpid(child, &status, 0) != child || !WIFEXITED(status) || WEXITSTATUS(status) == 0) return FAILED;
  return WEXITSTATUS(status);
}

/* Runs a command that mounts nothing. */
static int run_command(struct supervisor *s, const char *operand) {
  switch (s->command) {
  case PRINTS_HELP: return print_help();
  case PRINTS_VERSION: return print_version();
  case PRINTS_SERVER: return print_server(operand);
  case RESTARTS: return restart_server(operand);
  case BACKS_UP: return back_up(s, s->copy, operand);
  default: return print_status(operand, s->as_json);
  }
}

int main(int argc, char **argv) {
  static struct supervisor s = {.way = ORDERED, .flags = MS_NOSUID | MS_NODEV, .control.events = -1, .own_end = -1, .engine_end = -1};
  int ends[2], null;
  close_range(FIRST_OTHER, ~0U, 0);
  do null = open("/dev/null", O_RDWR | O_CLOEXEC);
  while (null >= 0 && null < FIRST_OTHER);
  close(null);
  if (getauxval(AT_SECURE) != 0)
    return say("this program can't run with its file's owner or capabilities: its caller names the engine"), FAILED;
  if (!read_arguments(&s, argc, argv)) return USAGE;
  signal(SIGCHLD, SIG_DFL);
  if (s.command != MOUNTS) return run_command(&s, argv[optind]);
  if (s.fake) return 0;
  umask(S_IRWXG | S_IRWXO);
  if (s.remounts) return remount(&s, argv[optind], argv[optind + 1]);
  signal(SIGPIPE, SIG_IGN);
  sigprocmask(SIG_BLOCK, NULL, &s.mask);
  if (s.foreground) return run(&s, argv[optind], argv[optind + 1]);
  if (pipe2(ends, O_CLOEXEC) != 0) return refused("pipe"), FAILED;
  pid_t child = fork();
  if (child < 0) return refused("fork"), FAILED;
  if (child > 0) return close(ends[1]), await_readiness(child, ends[0]);
  close(ends[0]);
  s.readiness = ends[1];
  return run(&s, argv[optind], argv[optind + 1]);
}
