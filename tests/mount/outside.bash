# Phases of tests/mount/run: changes to a mount from outside, by another program or by systemd, and the search for the engine. Each runs
# in a folder of its own.

# A mount in use is unmounted from outside, and another file system is mounted there: a signal leaves that one alone. A mount is found by
# a path with all characters that the table of mounts escapes.
another_on_top() {
  mkdir 'm t#\x' && start 'a #\b.store' 'm t#\x' log && stop_and_end || return 1
  start store mnt log && echo one >mnt/one && exec 9<mnt/one || return 1
  umount -l mnt && mount -t tmpfs other mnt || return 1
  kill -TERM "$supervisor"
  await grep -q "isn't mounted on .* any more" log || return 1
  expect "the other file system is still mounted" grep -q "^other $PWD/mnt tmpfs " /proc/mounts || return 1
  expect "an open file is read" [ "$(cat <&9)" = one ] || return 1
  exec 9<&-
  ended 0 && umount mnt && isnt_mounted "$PWD/mnt"
}

# A relative folder in PATH: later servers are found by it too, though the supervisor has left the folder by then.
relative_path() {
  mkdir alone programs && cp "$program" "${program%/*}/fusekeep-gather.so" alone && cp "$engine" programs/fusekeep || return 1
  env -u FUSEKEEP PATH="programs:$PATH" alone/fusekeep-mount store mnt || return 1
  supervisor=$(value_of supervisor store) || return 1
  echo one >mnt/one && python3 "$here/killer.py" "$supervisor" 2 1.1 2>/dev/null || return 1
  keeps "it is read by a later server" [ "$(cat mnt/one)" = one ] || return 1
  unmount mnt && await isnt_running "$supervisor"
}

# Another engine, which keeps its files and records in memory: the next server after a kill has agreed on no INIT.
files_from_memory() {
  export FUSEKEEP=$files_mount
  start store mnt log || return 1
  expect "its files are listed" [ "$(ls mnt | xargs)" = "hours licence readme times" ] || return 1
  expect "they are read" [ "$(cat mnt/readme mnt/licence mnt/hours)" = "Three files to read.Copy them freely.9 to 5" ] || return 1
  expect "the link has its target" [ "$(readlink mnt/times)" = hours ] || return 1
  expect "it is followed" [ "$(cat mnt/times)" = "9 to 5" ] || return 1
  expect "statfs has its numbers" [ "$(stat -f -c '%b %f %a %c %d %l %s %S' mnt)" = "4 0 0 5 0 255 4096 512" ] || return 1
  expect "df has them" [ "$(df --output=size,used,avail,itotal,iused mnt | tail -n 1 | xargs)" = "2 2 0 5 5" ] || return 1
  expect "none is made" is_read_only mnt/new || return 1
  unmount_and_end mnt && start store mnt log-again || return 1
  expect "the next mount has them, too" [ "$(cat mnt/hours)" = "9 to 5" ] || return 1
  python3 "$here/killer.py" "$supervisor" 1 || return 1
  expect "after a kill a look at the mount is an error" await is_refused mnt || return 1
  expect "the store is empty" [ ! -s store ] || return 1
  unmount_and_end mnt
}

is_read_only() {
  ! touch "$1" 2>line && grep -q "Read-only" line
}

# --server prints the number of this store's server: by any path of the store, beside another mount, and again when the next server
# runs. Without a mount, and for another user, it prints a line and no number.
server_number() {
  local server other
  mkdir other && start other-store other log-other && other=$supervisor || return 1
  start store mnt log && ln -s "$PWD/store" link && server=$(ask --server store) || return 1
  expect "the supervisor's child" [ "$(sed 's/.*) . \([0-9]*\) .*/\1/' "/proc/$server/stat")" = "$supervisor" ] || return 1
  expect "the same by a link" [ "$(ask --server link)" = "$server" ] || return 1
  expect "the same from within the mount" [ "$(cd mnt && ask --server ../store)" = "$server" ] || return 1
  expect "another number for another store" [ "$(ask --server other-store)" != "$server" ] || return 1
  kill -KILL "$server"
  await has_other_server "$server" && mkdir mnt/a || return 1
  expect "only this server was killed" [ "$(kills_in log) $(kills_in log-other)" = "1 0" ] || return 1
  expect "another user sees no server" has_no_server "can't be asked by this user" $user "$program" --server store || return 1
  unmount_and_end mnt || return 1
  expect "no server after the end of the mount" has_no_server "store isn't mounted" "$program" --server store || return 1
  expect "no server of a missing store" has_no_server "missing isn't mounted" "$program" --server missing || return 1
  supervisor=$other && stop_and_end
}

has_other_server() {
  local server
  server=$(ask --server store) && [ "$server" != "$1" ]
}

# Whether a command prints this line on standard error and nothing on standard output, with status 1: has_no_server LINE COMMAND WORD..
has_no_server() {
  local line=$1
  shift
  "$@" >number 2>line
  [ $? -eq 1 ] && ! [ -s number ] && grep -qF "$line" line
}

# The unit for systemd, with its program in the folder that it names. It has no option that gives it a mount namespace of its own.
unit() {
  local status own='Private(Tmp|Devices|Mounts|Network|IPC)|Protect(System|Home|Proc|KernelTunables|KernelModules|KernelLogs|ControlGroups)'
  # shellcheck disable=SC2016
  unshare --mount sh -c 'mount -t tmpfs none /usr/local/bin && cp "$0" /usr/local/bin && systemd-analyze verify "$1"' \
    "$program" "$top/mount/fusekeep@.service" || return 1
  cp "$top/mount/fusekeep@.service" fusekeep@srv-data.service || return 1
  systemd-analyze security --offline=true --no-pager --threshold=45 "$PWD/fusekeep@srv-data.service" >exposure 2>&1
  status=$?
  expect "its exposure is 4.5 at most ($(tail -n 1 exposure))" [ "$status" -eq 0 ] || return 1
  own+='|ProcSubset|MountFlags|MountAPIVFS|(Read|Inaccessible|Exec|NoExec)[A-Za-z]*Paths|Bind[A-Za-z]*|TemporaryFileSystem|Root[A-Z][a-z]*'
  expect "others see its mount" [ -z "$(grep -E "^($own)=" fusekeep@srv-data.service)" ]
}

# Whether a process has reported this state: has_said LINE
has_said() {
  [ "$(cat states)" = "$1" ]
}

# With the capabilities of the unit, and with a socket of a path or of an abstract name, on which the manager of services listens.
unit_starts() {
  local name words
  words=$(sed -n 's/^CapabilityBoundingSet=//p' "$top/mount/fusekeep@.service" | xargs -n 1 | sed 's/CAP_/+/' | tr A-Z a-z | paste -sd ,)
  mkdir folder && touch folder/store && chown 65534:65534 folder/store || return 1
  for name in "$PWD/socket" "@$PWD/socket"; do
    : >states
    python3 -c 'import socket, sys
listener = socket.socket(socket.AF_UNIX, socket.SOCK_DGRAM)
listener.bind(sys.argv[1].replace("@", "\0", 1))
open("listens", "w")
open("states", "wb").write(listener.recv(100))' "$name" &
    await [ -e listens ] && rm listens || return 1
    NOTIFY_SOCKET=$name setpriv --bounding-set="-all,$words" --no-new-privs "$program" -f folder/store mnt 2>log &
    supervisor=$!
    await has_said READY=1 && echo one >mnt/one || return 1
    python3 "$here/killer.py" "$supervisor" 2 0.3 2>line && expect "the file is there" [ "$(cat mnt/one)" = one ] && stop_and_end || return 1
  done
}

# The command that the unit runs after its program: a mount that answers stays, as after a refused second start, and a dead one goes.
unit_stops() {
  sed -n "s|^ExecStopPost=-\(/bin/sh -c '.*' sh\) %f$|\1 \"\$1\"|p" "$top/mount/fusekeep@.service" | sed 's/\$\$/$/g' >stops
  expect "the unit names the command" [ -s stops ] || return 1
  start store mnt log && sh stops "$PWD/mnt" || return 1
  expect "a mount that answers stays" is_mounted "$PWD/mnt" || return 1
  kill_supervisor || return 1
  await sh -c '! stat "$0"' "$PWD/mnt" || return 1
  sh stops "$PWD/mnt"
  expect "a dead one goes" isnt_mounted "$PWD/mnt"
}

# Starts a call that waits for the next server, in the background. It must still wait a second later.
start_waiting() {
  mkdir "mnt/$1" &
  waiting=$!
  await waits_in_call "$waiting" && sleep 1 || return 1
  expect "the call waits" kill -0 "$waiting"
}

# The store gets a second name while it is mounted: the line comes at once, and calls wait from the server's end until that name is removed.
hard_link() {
  start store mnt log && ln store twice || return 1
  await grep -q "store has another name (a hard link), so no server can open it: remove that name" log || return 1
  mkdir mnt/before && kill -KILL "$(ask --server store)" && start_waiting after && rm twice || return 1
  expect "the call succeeds" wait "$waiting" || return 1
  keeps "both are there" [ "$(ls mnt | xargs)" = "after before" ] || return 1
  unmount_and_end mnt
}

moved_store() {
  start store mnt log && mv store elsewhere || return 1
  await grep -q "/store was moved to $PWD/elsewhere: no server can open it until it is back" log || return 1
  mkdir mnt/before && kill -KILL "$(server_by_parent)" && start_waiting after && mv elsewhere store || return 1
  expect "the call succeeds" wait "$waiting" || return 1
  keeps "both are there" [ "$(ls mnt | xargs)" = "after before" ] || return 1
  unmount_and_end mnt
}

# The server, by its parent: without the store's file --server doesn't find it.
server_by_parent() {
  local child
  for child in $(cat "/proc/$supervisor/task/$supervisor/children"); do
    ! has_word "$child" serve || echo "$child"
  done
}

# The store is removed while it is mounted: its bytes and its log are copied from the descriptors that the line names.
removed_store() {
  start store mnt log && mkdir mnt/before && rm store || return 1
  await grep -q "/store was removed while it was mounted: until its server ends, .* has its log" log || return 1
  mkdir mnt/after || return 1
  cp "$(grep -o '/proc/[0-9]*/fd/[0-9]* has its bytes' log | cut -d ' ' -f 1)" copy || return 1
  cp "$(grep -o '/proc/[0-9]*/fd/[0-9]* has its log' log | cut -d ' ' -f 1)" copy-wal && copy_contents store copy || return 1
  kill -KILL "$(server_by_parent)"
  ended 1 || return 1
  expect "it says why" grep -q "gave up: .*/store was removed" log || return 1
  umount -l mnt && start copy mnt log-copy || return 1
  keeps "both are there" [ "$(ls mnt | xargs)" = "after before" ] || return 1
  unmount_and_end mnt
}

# The log is removed while the store is mounted: it is written anew, and no call fails.
removed_log() {
  start store mnt log && echo one >mnt/one && rm store-wal && await grep -q "/store-wal was removed" log && echo two >mnt/two || return 1
  expect "the log is there" [ -s store-wal ] || return 1
  kill -KILL "$(ask --server store)" || return 1
  keeps "both files are there" [ "$(cat mnt/one mnt/two | xargs)" = "one two" ] || return 1
  unmount_and_end mnt && start store mnt log-again || return 1
  keeps "both files are still there" [ "$(cat mnt/one mnt/two | xargs)" = "one two" ] || return 1
  unmount_and_end mnt
}

# A mount that another namespace has too: after an unmount here it is served on, and the next mount is refused with a line that names the
# process there.
other_namespace() {
  start store mnt log || return 1
  unshare --mount --propagation private sleep infinity &
  local sleeper=$!
  await sh -c 'grep -q sleep "/proc/$0/comm"' "$sleeper" || return 1
  unmount mnt || return 1
  refuses 1 ".*/store is mounted already: process $supervisor serves it, and process $sleeper .sleep. has the mount in its namespace" "$program" store || return 1
  kill "$sleeper"
  ended 0 && start store mnt log-again && unmount_and_end mnt
}
