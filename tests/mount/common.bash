# What all phases of tests/mount/run use. Each phase runs in a folder and, where the system allows it, in a mount namespace of its own. The
# environment has what tests/mount/run has chosen: see `run_phase` there.

. "$here/refused.bash"
. "$here/background.bash"
. "$here/openings.bash"
. "$here/outside.bash"
. "$here/killed.bash"
. "$here/groups.bash"
. "$here/flushes.bash"
. "$here/upon.bash"
. "$here/lives.bash"
. "$here/privileges.bash"
. "$here/files.bash"
. "$here/contents.bash"
. "$here/room.bash"
. "$here/operations.bash"
. "$here/copies.bash"

processes=4
most_kills_of_a_round=100
creations=36000 # of all processes in a round: a mount has room for 65,535
operations_of_a_mount=20000 # a removed file keeps its place until the next mount
patience=600 # seconds, and tries, which take longer on a busy machine: they only end what would never end

# A user who isn't root.
user="setpriv --reuid=65534 --regid=65534 --clear-groups --inh-caps=-all"

# The mounts under the folder of this test, the last one first.
mounts() {
  awk -v work="$work/" 'index($2, work) == 1 { print $2 }' /proc/mounts | tac
}

# The phase goes on: it is ended where it doesn't for long.
note_progress() {
  touch "$FUSEKEEP_TEST/alive"
}

# Runs a command again until it succeeds.
await() {
  local began=$SECONDS pause=0.02 tries=0
  until "$@" >/dev/null 2>&1; do
    tries=$((tries + 1))
    if [ $((SECONDS - began)) -gt "$patience" ] && [ "$tries" -gt "$patience" ]; then
      echo "waited $((SECONDS - began)) s without success for: $*"
      return 1
    fi
    [ $((SECONDS - began)) -lt 2 ] || pause=0.2
    sleep "$pause"
  done
  note_progress
}

# Whether a command succeeds so many seconds from now at the latest: within SECONDS COMMAND WORD..
within() {
  local end=$((SECONDS + $1))
  shift
  until "$@" >/dev/null 2>&1; do
    [ "$SECONDS" -le "$end" ] || return 1
    sleep 0.02
  done
}

expect() {
  local what=$1
  shift
  "$@" || { echo "not so: $what"; return 1; }
}

# The same of what an answered call has done. Where a mount that answers hasn't kept that, it is wrong.
keeps() {
  local what=$1
  shift
  "$@" && return
  echo "not so: $what"
  ! timeout -k 1 "$patience" stat -t mnt >/dev/null 2>&1 || report_wrong "${FUSEKEEP_TEST##*/}: not so: $what"
  return 1
}

# Whether two files have the same bytes, as a call has written them.
has_bytes_of() {
  keeps "$2 has the bytes of $1" cmp "$1" "$2"
}

not() {
  ! "$@"
}

is_mounted() {
  mounts | grep -qxF "$1"
}

isnt_mounted() {
  ! is_mounted "$1"
}

isnt_running() {
  ! kill -0 "$1"
}

# Whether a process has this state, a letter of proc_pid_stat(5).
has_state() {
  [ "$(sed 's/.*) \(.\).*/\1/' "/proc/$1/stat")" = "$2" ]
}

# Stops a process, and returns when it does nothing any more.
halt() {
  kill -STOP "$1" && await has_state "$1" T
}

# Whether a process waits for an answer of a mount, or for a server that takes its request. The kernel names the function in which a
# process sleeps only to root.
waits_in_call() {
  grep -qE "request_wait|fuse" "/proc/$1/wchan"
}

# Whether a look at a mount is an error of ls(1), and doesn't hang.
is_refused() {
  timeout -k 1 "$patience" ls "$1" 2>line
  [ $? -eq 2 ]
}

# What fusekeep-mount prints of a mount. It answers nothing for a while where the machine is busy, or where no server runs: ask WORD..
ask() {
  local end=$((SECONDS + patience)) answer
  until answer=$("$program" "$@" 2>/dev/null); do
    [ "$SECONDS" -le "$end" ] || { echo "waited $patience s without an answer: fusekeep-mount $*" >&2; return 1; }
    sleep 0.05
  done
  echo "$answer"
}

# Asks a mount for another server or for a copy, whose answer goes into the file `shown`. A supervisor drops a client that is slow, as one may
# be on a busy machine: request WORD..
request() {
  local end=$((SECONDS + patience))
  until "$program" "$@" >shown 2>refusal; do
    grep -q "gives no answer" refusal && [ "$SECONDS" -le "$end" ] || { cat refusal; return 1; }
  done
}

# Whether a mount has ended or is ready, as its log says: has_begun_or_ended LOG
has_begun_or_ended() {
  grep -q "is mounted on" "$1" || isnt_running "$supervisor"
}

# Waits for a supervisor that was started in the background: await_mount LOG
await_mount() {
  await has_begun_or_ended "$1" && expect "it is mounted: $(cat "$1")" grep -q "is mounted on" "$1"
}

# Mounts, and stays beside, with the options in `options` and the way, a store of `profile`: start STORE MOUNTPOINT LOG
options=
switch=-f
start() {
  local words=$options${way:+,$way}
  [ "$profile" = everyday ] || words+=,profile=$profile
  : >"$3"
  "$program" "$switch" ${words:+-o "$words"} "$1" "$2" 2>"$3" &
  supervisor=$!
  await_mount "$3"
}

# Waits for the end of the supervisor, which must end with this status.
ended() {
  local status
  wait "$supervisor"
  status=$?
  expect "the supervisor ended with status $1 (it ended with $status)" [ "$status" -eq "$1" ]
}

# A process that has just ended may use a mount for a moment.
unmount() {
  await umount "$1"
}

unmount_and_end() {
  unmount "$1" && ended 0 && isnt_mounted "$1"
}

stop_and_end() {
  kill -TERM "$supervisor" && ended 0
}

# Kills the supervisor, and waits until its server has ended too: until then the store is locked.
kill_supervisor() {
  local server
  server=$(server_by_parent)
  kill -KILL "$supervisor"
  wait "$supervisor" 2>/dev/null
  [ -z "$server" ] || await isnt_running "$server"
}

# Unmounts a mount in the background, and waits until its store isn't locked any more: leave STORE MOUNTPOINT
leave() {
  unmount "$2" && flock -w "$patience" "$1-mount" true
}

# The number of killed servers in the logs of supervisors.
kills_in() {
  cat "$@" 2>/dev/null | grep -c "killed by signal 9"
}

# Whether the log of the supervisor has this line so many times.
has_lines() {
  [ "$(grep -c "$2" log)" -eq "$1" ]
}

# The same, so many times at least, for an extended expression.
has_lines_of() {
  [ "$(grep -cE "$2" log)" -ge "$1" ]
}

# Makes an engine of the script at standard input (see scripted.c), which the next mounts have: make_engine NAME
make_engine() {
  cat >"$1.bash" && cp "$work/scripted" "$1" && export FUSEKEEP=$PWD/$1
}
