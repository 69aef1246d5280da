# Phases of tests/mount/run: how servers live and end, and what the mount makes of it. Each runs in a folder of its own.

# Whether the list of deaths has so many lines that end so: has_deaths COUNT ENDING
has_deaths() {
  [ "$(grep -cE "$2\$" store-mount.log)" -eq "$1" ]
}

# The kernel forgets 10,000 directories while the server is stopped, and hands them on in messages as long as a server takes.
forgotten() {
  local server
  start store mnt log && python3 -c 'import os; [os.mkdir(f"mnt/{number}") for number in range(10000)]' || return 1
  server=$(ask --server store) && halt "$server" && forget_all "$PWD/mnt" && kill -CONT "$server" || return 1
  keeps "they are still there" [ "$(ls mnt | wc -l)" -eq 10000 ] || return 1
  expect "the server lives" [ "$(ask --server store)" = "$server" ] || return 1
  unmount_and_end mnt
}

# Makes the kernel forget the files of one mount: it does so at a remount, which by itself asks no server.
forget_all() {
  python3 - "$1" <<'CALL'
import ctypes, os, sys
MS_REMOUNT = 32
library = ctypes.CDLL(None, use_errno=True)
if library.mount(None, os.fsencode(sys.argv[1]), None, MS_REMOUNT, None) != 0:
    sys.exit(os.strerror(ctypes.get_errno()))
CALL
}

# An engine that writes before it is a server, and then waits as long as the file `opens` is there, or for the seconds that it names.
write_slow_engine() {
  make_engine slow-engine <<END
if [ "\$4" = --resume ] && [ -e "$PWD/opens" ]; then
  for ((number = 0; number < 10; number++)); do echo "more than a notice"; done >"$PWD/written"
  seconds=\$(cat "$PWD/opens")
  echo . >>"$PWD/begun"
  [ -z "\$seconds" ] || sleep "\$seconds"
  while [ -z "\$seconds" ] && [ -e "$PWD/opens" ]; do sleep 0.1; done
fi
LD_PRELOAD=\$PRELOAD exec "$engine" "\$@"
END
}

# The list has the time until the next server asked for the pending requests. One that was killed before has asked for none.
restart_times() {
  local line='^20[^ ]* signal=9 lived=[0-9.]+'
  write_slow_engine
  start store mnt log && mkdir mnt/made && touch opens || return 1
  kill -KILL "$(ask --server store)" && await [ -e begun ] && echo 2 >seconds && mv seconds opens || return 1
  kill -KILL "$(server_by_parent)"
  expect "the mount answers" ls mnt && unmount_and_end mnt || return 1
  expect "the first restart failed ($(head -n 1 store-mount.log))" grep -qE "$line restart=-\$" <(head -n 1 store-mount.log) || return 1
  expect "the second took the time ($(tail -n 1 store-mount.log))" grep -qE "$line restart=([2-9]|[1-9][0-9]+)[.][0-9]+\$" <(tail -n 1 store-mount.log) || return 1
  expect "that is all" [ "$(wc -l <store-mount.log)" -eq 2 ]
}

# Twelve servers are killed before they serve. The mount goes on, and starts them more and more slowly.
killed_openings() {
  local number
  write_slow_engine
  start store mnt log && touch opens && kill -KILL "$(ask --server store)" || return 1
  for number in {1..12}; do
    await has_begun "$number" && kill -KILL "$(server_by_parent)" || return 1
  done
  rm opens
  expect "the mount answers" ls mnt && expect "it didn't give up" [ "$(grep -c "gave up" log)" -eq 0 ] || return 1
  expect "the pauses grow to five seconds ($(pauses_in log))" \
    [ "$(pauses_in log)" = "first 50 100 200 400 800 1600 3200 5000 5000 5000 5000 5000" ] || return 1
  unmount_and_end mnt
}

has_begun() {
  [ "$(wc -l <begun)" -ge "$1" ]
}

# The pauses after killed servers. The first one had served.
pauses_in() {
  sed -n 's/.*killed by signal 9; the next one runs in \([0-9]*\) ms/\1/p' "$1" | sed '1s/.*/first/' | xargs
}

# An engine that dies at a request, as crash.c does: write_crashing_engine VARIABLE=VALUE..
write_crashing_engine() {
  "${CC:-cc}" -std=c11 -O2 -Wall -Wextra -shared -fPIC -o crash.so "$here/crash.c" -ldl || return 1
  make_engine crashing-engine <<END
[ "\$4" = --resume ] || LD_PRELOAD=\$PRELOAD exec "$engine" "\$@"
export $*
[ ! -e "$PWD/touches" ] || (sleep 0.5; touch "$PWD/store-wal") &
LD_PRELOAD=$PWD/crash.so:\$PRELOAD exec "$engine" "\$@"
END
}

# Servers die when they have read one of many requests that wait together. After three that had it alone it is answered EIO, and the others
# are executed. Later requests are gathered again.
deadly_request() {
  local caller server options=durable
  write_crashing_engine CRASH_AT=read CRASH_NAME=bad && start store mnt log && mkdir mnt/{1..16} || return 1
  server=$(ask --server store) && halt "$server" || return 1
  mkdir mnt/bad 2>line &
  caller=$!
  await waits_in_call "$caller" && call_sixteen mkdir || return 1
  kill -CONT "$server"
  wait "$caller"
  expect "the call failed with EIO ($(cat line))" grep -q "Input/output error" line || return 1
  end_callers || return 1
  expect "the request is named" grep -qE '3 servers in a row ended at LOOKUP id=[0-9]+ node=[0-9]+ "bad": it is answered EIO' log || return 1
  expect "the list names it" await has_deaths 1 'status=9 lived=[0-9.]+ restart=[0-9.]+ LOOKUP id=[0-9]+ node=[0-9]+ "bad" is answered EIO' || return 1
  expect "three or four servers died ($(wc -l <store-mount.log))" grep -qx "[34]" <(wc -l <store-mount.log) || return 1
  mkdir mnt/later && rmdir mnt/{1..16}/made && removes_together && unmount_and_end mnt
}

# Servers die when they have committed a request and are about to answer it, after more than a second, in which the log changes. It is never
# answered EIO, since it took effect. Ten end the mount, and the next one has it.
deadly_answer() {
  write_crashing_engine CRASH_AT=write CRASH_NAME=bad CRASH_PAUSE=1100 && start store mnt log || return 1
  touch touches
  mkdir mnt/bad 2>line &
  await isnt_running "$supervisor" || return 1
  ended 1 && umount -l mnt || return 1
  expect "it says why" grep -q "gave up: 10 servers in a row ended by themselves" log || return 1
  expect "the list says why" await has_deaths 1 "restart=- gave up: 10 servers in a row ended by themselves before the kernel took an answer" || return 1
  expect "it isn't answered EIO" [ "$(cat log store-mount.log line | grep -cE "EIO|Input/output")" -eq 0 ] || return 1
  export FUSEKEEP=$engine
  start store mnt log-again && keeps "it took effect" [ "$(ls mnt)" = bad ] && unmount_and_end mnt
}

# INIT is never answered EIO, since the mount can't do without. A FORGET doesn't come again, so that it kills one server.
deadly_others() {
  write_crashing_engine CRASH_AT=read CRASH_OPCODE=26 || return 1
  "$program" store mnt 2>line
  expect "it ends with status 1" [ $? -eq 1 ] || return 1
  expect "it says why ($(cat line))" grep -q "gave up: 10 servers in a row ended by themselves" line || return 1
  expect "it isn't answered EIO" [ "$(grep -c EIO line store-mount.log)" = $'line:0\nstore-mount.log:0' ] || return 1
  write_crashing_engine CRASH_AT=read CRASH_OPCODE=2 && start other-store mnt log && touch mnt/one && rm mnt/one || return 1
  await grep -q "server .* ended, status 9" log && mkdir mnt/two && unmount_and_end mnt || return 1
  expect "one server died" [ "$(grep -c lived= other-store-mount.log)" -eq 1 ] && expect "nothing is answered EIO" [ "$(grep -c EIO log)" -eq 0 ]
}

# A row with a size below 0, and a name of 300 bytes, which sqlite3 writes between two mounts: calls that meet one of them fail, and no other.
damaged_rows() {
  start store mnt log && mkdir mnt/good mnt/long && echo one >mnt/good/one && echo two >mnt/two && touch mnt/long/a && stop_and_end || return 1
  sqlite3 store "UPDATE nodes SET size = -1 WHERE node = (SELECT child FROM entries WHERE name = CAST('two' AS BLOB));
    UPDATE entries SET name = CAST(printf('%.300c', 'x') AS BLOB) WHERE name = CAST('a' AS BLOB)" || return 1
  start store mnt log-damaged || return 1
  expect "a look at the size is an error" has_io_error stat mnt/two || return 1
  expect "a listing with the name is an error" has_io_error ls mnt/long || return 1
  expect "a file beside them is read" [ "$(cat mnt/good/one)" = one ] || return 1
  expect "one is made" mkdir mnt/made || return 1
  expect "the requests are named ($(grep EIO log-damaged))" grep -qE 'ended at LOOKUP id=[0-9]+ node=1 "two": it is answered EIO' log-damaged || return 1
  expect "it didn't give up" [ "$(grep -c "gave up" log-damaged)" -eq 0 ] || return 1
  unmount_and_end mnt
}

# Whether a command fails with EIO.
has_io_error() {
  timeout -k 1 "$patience" "$@" >listed 2>line
  [ $? -ne 124 ] && grep -q "Input/output error" line
}

# While no process can be made the next server isn't started. It is as soon as one can, and that is no failure of a server.
no_process() {
  local group=/sys/fs/cgroup/pids/fusekeep-test-$$ status
  start store mnt log && mkdir "$group" && echo "$supervisor" >"$group/cgroup.procs" && echo 1 >"$group/pids.max" || return 1
  makes_again "$group"
  status=$?
  echo max >"$group/pids.max"
  echo "$supervisor" >"$group/../cgroup.procs"
  unmount_and_end mnt || status=1
  await rmdir "$group" && return "$status"
}

makes_again() {
  kill -KILL "$(ask --server store)" && await has_lines_of 4 "fork: Resource temporarily unavailable" || return 1
  echo max >"$1/pids.max"
  expect "a call succeeds" mkdir mnt/made && expect "it is there" [ "$(ls mnt)" = made ]
}

# A stopped server is killed after the seconds of the watchdog, if it has not taken a request that waits. An idle one is left alone.
watched() {
  local server
  options=watchdog=8
  start store mnt log && server=$(ask --server store) && halt "$server" && sleep 20 || return 1
  expect "an idle server isn't killed" kill -0 "$server" || return 1
  mkdir mnt/first && expect "it was killed" grep -q "server $server has answered nothing for more than 8 s: it is killed" log || return 1
  expect "the list has the reason" await has_deaths 1 "signal=9 lived=[0-9.]+ restart=[0-9.]+ by the watchdog" || return 1
  expect "the next server makes it" [ "$(ls mnt)" = first ] || return 1
  unmount_and_end mnt || return 1
  options=
  refuses 2 "fusekeep-mount: watchdog=0: no number of seconds" "$program" -o watchdog=0 other-store
}

# A request takes longer than the watchdog's seconds. Two servers are killed, and the third has four times as long, which is enough.
watched_request() {
  options=watchdog=8
  write_crashing_engine CRASH_AT=none CRASH_NAME=slow CRASH_PAUSE=24000 && start store mnt log || return 1
  ! stat mnt/slow 2>line && expect "it is answered" grep -q "No such file" line || return 1
  expect "one was killed after 8 s" has_lines 1 "has answered nothing for more than 8 s: it is killed" || return 1
  expect "one was killed after 16 s" has_lines 1 "has answered nothing for more than 16 s: it is killed" || return 1
  expect "that is all" await has_deaths 2 "by the watchdog" && unmount_and_end mnt
}

# A server that opens the store for longer than ten times the watchdog's seconds is killed once, and the next one has twice as long.
watched_opening() {
  options=watchdog=2
  write_slow_engine
  start store mnt log && echo 30 >opens && kill -KILL "$(ask --server store)" || return 1
  expect "the mount answers" ls mnt || return 1
  expect "one was killed while it opened" [ "$(grep -c "has opened the store for more than 20 s: it is killed" log)" -eq 1 ] || return 1
  expect "two began" [ "$(wc -l <begun)" -eq 2 ] || return 1
  unmount_and_end mnt
}

# What others name is written so that a terminal does nothing at it: names in the lines of -d, paths and processes in messages, the last
# line of a server.
escaped() {
  local switch=-d name=$'a\x1b\x7f\xc2\x9b\xff\xc3\xa4' holder
  start store mnt log && touch "mnt/$name" && unmount_and_end mnt || return 1
  expect "a name in a line" grep -qF '"a\033\177\302\233\377'$'\xc3\xa4"' log || return 1
  switch=-f
  mkdir $'f\xc2\x9b' && start $'f\xc2\x9b/store' mnt log-path && ask --status $'f\xc2\x9b/store' >status && unmount_and_end mnt || return 1
  expect "a path in the status" grep -qF 'f\302\233/store' status || return 1
  expect "a path in a message" grep -qF 'f\302\233/store is mounted on' log-path || return 1
  cc_static $'h\x1bd' '#include <fcntl.h>
    #include <unistd.h>
    int main(void) { return lockf(0, F_LOCK, 0) == 0 && write(1, "", 1) == 1 && sleep(3600) == 0; }' && touch held || return 1
  ./$'h\x1bd' <>held >locked &
  holder=$!
  await [ -s locked ] || return 1
  "$program" held mnt 2>line
  kill "$holder"
  expect "a holder's name ($(cat line))" grep -qF '(h\033d)' line || return 1
  make_engine saying-engine <<<"[ \"\$4\" != --resume ] || { printf 'a\x1bb\n' >&2; exit 3; }; LD_PRELOAD=\$PRELOAD exec '$engine' \"\$@\""
  "$program" -f other mnt 2>line
  expect "a server's line" grep -qF 'status 3: a\033b' line && expect "in the list, too" grep -qF ' a\033b' other-mount.log
}

# A number of an error that has no opposite.
least_error() {
  FUSEKEEP_LINES=2 LD_PRELOAD=$top/mount/out/fusekeep-gather.so python3 -c 'import os, struct; os.write(1, struct.pack("<IiQ", 16, -2**31, 4))' \
    </dev/fuse >/dev/null 2>line
  expect "it is written ($(cat line))" grep -qE 'id=4 resend=0 errno=2147483648 len=16$' line
}

# The first child has neither the folder nor the session in which the mount was started.
left_place() {
  make_engine placed-engine <<END
[ "\$4" = --resume ] || { pwd; ps -o sid= -p \$\$; } >"$PWD/place"
LD_PRELOAD=\$PRELOAD exec "$engine" "\$@"
END
  "$program" store mnt && umount mnt || return 1
  expect "its folder is the root" [ "$(head -n 1 place)" = / ] || return 1
  expect "its session is another one" [ "$(tail -n 1 place | xargs)" != "$(ps -o sid= -p $$ | xargs)" ]
}
