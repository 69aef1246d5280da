# Phases of tests/mount/run: when servers flush, and flushes that fail. Each runs in a folder of its own.

# How many flushes the mount has counted.
flush_count() {
  ask --status store | sed -n 's/^flushes *//p'
}

durability() {
  ask --status store | sed -n 's/^durability *//p'
}

# Makes a hundred directories, and prints how many flushes that took.
flushes_of_hundred() {
  local before
  before=$(flush_count) && mkdir mnt/"$1"-{1..100} && echo $(($(flush_count) - before))
}

# A mount of each way, and what sync and dirsync make of an ordered one: it is durable then, and isn't remounted so. Nothing said is ordered.
ways_to_flush() {
  local flushes began
  for options in durable sync ordered,dirsync; do
    start store mnt log || return 1
    expect "$options is durable" [ "$(durability)" = durable ] || return 1
    flushes=$(flushes_of_hundred "$options") && expect "$options: each is flushed ($flushes)" [ "$flushes" -ge 100 ] || return 1
    unmount_and_end mnt || return 1
  done
  for options in "" sync,durable,ordered,async; do
    start store mnt log || return 1
    expect "it is ordered" [ "$(durability)" = ordered ] || return 1
    began=$SECONDS
    flushes=$(flushes_of_hundred "last$options") && expect "flushes wait ($flushes)" [ "$flushes" -lt $((50 + (SECONDS - began) / 5)) ] || return 1
    refuses_remount sync && refuses_remount dirsync && "$program" -o remount,noatime store mnt || return 1
    unmount_and_end mnt || return 1
  done
  options=volatile
  start store mnt log || return 1
  expect "it is volatile" [ "$(durability)" = volatile ] && unmount_and_end mnt
}

# A plain store serves no fsync, so that its mount is durable from the begin.
plain_flushes() {
  local flushes profile=plain
  for options in "" ordered; do
    start store mnt log || return 1
    expect "it is durable" [ "$(durability)" = durable ] || return 1
    flushes=$(flushes_of_hundred "made$options") && expect "each is flushed ($flushes)" [ "$flushes" -ge 100 ] || return 1
    kill -KILL "$(ask --server store)" && mkdir "mnt/two$options" || return 1
    expect "it stays so" [ "$(durability)" = durable ] && unmount_and_end mnt || return 1
  done
}

refuses_remount() {
  if "$program" -o "remount,$1" store mnt 2>line; then
    echo "it is remounted with $1"
    return 1
  fi
  expect "it says why" grep -q "is ordered: unmount it" line
}

# Compiles a library that is preloaded into servers before that of fusekeep-mount: make_preloaded SOURCE NAME VARIABLE=VALUE.. The file
# `fails` goes when the next server starts, unless there is a file `stays`.
make_preloaded() {
  local source=$1 name=$2
  shift 2
  "${CC:-cc}" -std=c11 -O2 -Wall -Wextra -shared -fPIC -o "$name.so" "$source" -ldl || return 1
  make_engine "$name-engine" <<END
[ "\$4" = --resume ] || LD_PRELOAD=\$PRELOAD exec "$engine" "\$@"
[ -e "$PWD/stays" ] || rm -f "$PWD/fails"
${*:+export $*}
LD_PRELOAD=$PWD/$name.so:\$PRELOAD exec "$engine" "\$@"
END
}

# An engine that answers FSYNC by ENOSYS is asked once. From then on the mount is durable. unserved.c makes one of a store's.
fsync_unserved() {
  local flushes
  make_preloaded "$here/unserved.c" unserved && start store mnt log && echo one >mnt/one || return 1
  expect "it is ordered" [ "$(durability)" = ordered ] || return 1
  sync mnt/one && expect "it is durable after an fsync" [ "$(durability)" = durable ] || return 1
  flushes=$(flushes_of_hundred made) && expect "each is flushed ($flushes)" [ "$flushes" -ge 100 ] || return 1
  kill -KILL "$(ask --server store)" && mkdir mnt/two && expect "it stays so" [ "$(durability)" = durable ] || return 1
  unmount_and_end mnt
}

# The log is flushed before FSYNC is answered, and nothing else changes.
fsync_served() {
  local before number
  start store mnt log || return 1
  echo one >mnt/one && mkdir mnt/place || return 1
  sync mnt/one && before=$(flush_count) || return 1
  for number in {1..10}; do
    mkdir "mnt/place/$number" && sync mnt/one && mkdir "mnt/place/again-$number" && sync mnt/place || return 1
  done
  expect "each fsync is one flush ($(($(flush_count) - before)))" [ $(($(flush_count) - before)) -eq 20 ] || return 1
  expect "it is still ordered" [ "$(durability)" = ordered ] && fsync_answers_last && unmount_and_end mnt
}

# The flush of an fsync comes after its request and before its answer, as strace sees them. FSYNC is of 56 bytes, and its opcode is 20.
# A flush that was owed for five seconds before the fsync is made before: then another one is tried.
fsync_answers_last() {
  local found try
  can_trace || return 0
  server=$(ask --server store) || return 1
  for try in {1..20}; do
    trace_server calls -e trace=read,write,fdatasync && mkdir "mnt/traced-$try" && sync mnt/one || return 1
    kill "$tracer"
    wait "$tracer"
    [ "$(grep -c '^fdatasync' <(sed '/^read(0, "8\\0\\0\\0\\24\\0\\0\\0/,$d' calls))" -gt 0 ] || break
  done
  found=$(grep -A 2 '^read(0, "8\\0\\0\\0\\24\\0\\0\\0' calls | cut -d '(' -f 1 | xargs)
  expect "a flush, then the answer (it has $found)" [ "$found" = "read fdatasync write" ]
}

# Begins an ordered mount whose servers can't flush the log while the file `fails` is there, with directories: start_failing VARIABLE=VALUE..
start_failing() {
  make_preloaded "$here/fail.c" fail "FAIL_WHILE=$PWD/fails" "$@" && start store mnt log && mkdir mnt/{1..19}
}

# Lets flushes fail, and makes one more directory, so that a flush is owed. The call may wait for the next server.
owe_failing() {
  touch fails
  mkdir mnt/20 2>line &
  owing=$!
}

# Makes a directory whose flush is owed by a stopped server, and sets `server` and the moment `owed`: owe_stopped NAME. A server that has
# paid it by then goes on, and another directory is tried.
owe_stopped() {
  local before try
  server=$(ask --server store) || return 1
  for try in {1..20}; do
    owed=$(date +%s.%N)
    before=$(flush_count) && mkdir "mnt/$1-$try" && halt "$server" || return 1
    [ "$(flush_count)" -ne "$before" ] || return 0
    kill -CONT "$server"
  done
  echo "a server flushes at once"
  return 1
}

# Whether the child of a process waits in a call.
has_waiting_child() {
  waits_in_call "$(xargs <"/proc/$1/task/$1/children")"
}

# Whether a mount has the directories that were made before, and so many others: has_all COUNT
has_all() {
  [ "$(find mnt -mindepth 1 | wc -l)" -eq "$1" ]
}

# A flush that is owed fails after five seconds. The server ends, the log is written anew, and nothing is lost. The deaths are no request's.
late_failure() {
  local before
  start_failing && before=$(stat -c %i store-wal) && owe_failing || return 1
  await has_lines_of 1 "a flush that was owed failed; .*-wal: Input/output error" || return 1
  await has_lines_of 1 "a flush of .*-wal failed, so it was written anew" && wait "$owing" || return 1
  keeps "all are there" has_all 20 || return 1
  expect "the log is another file" [ "$(stat -c %i store-wal)" != "$before" ] || return 1
  expect "the list has the death" await grep -qE " status=74 .*a flush that was owed failed" store-mount.log || return 1
  expect "no request is blamed" [ "$(grep -c EIO log)" -eq 0 ] && mkdir mnt/last && unmount_and_end mnt || return 1
  options=
  start store mnt log-again && keeps "the next mount has all" has_all 21 && unmount_and_end mnt
}

# An fsync whose flush fails returns when the log was written anew. It waits at a stopped server, which owes a flush, before flushes fail.
late_failure_of_fsync() {
  local caller server owed
  make_preloaded "$here/fail.c" fail "FAIL_WHILE=$PWD/fails" && start store mnt log && echo one >mnt/one && owe_stopped made || return 1
  (sync mnt/one && has_lines_of 1 "so it was written anew") &
  caller=$!
  await has_waiting_child "$caller" && touch fails && kill -CONT "$server" && await has_lines_of 1 "a flush that was owed failed" || return 1
  expect "the log was written anew before the call returned" wait "$caller" && keeps "it is there" [ "$(cat mnt/one)" = one ] || return 1
  expect "no request is blamed" [ "$(grep -c EIO log)" -eq 0 ] && unmount_and_end mnt
}

# A flush that fails for lack of room takes the reserve, and the log is written anew in its room.
late_failure_without_room() {
  start_failing FAIL_BY=28 && await [ -e store-reserve ] && owe_failing || return 1
  await has_lines_of 1 "has no room left: .*-reserve is given up" || return 1
  await has_lines_of 1 "a flush of .*-wal failed, so it was written anew" && await has_lines_of 1 "there is room again" || return 1
  wait "$owing" && keeps "all are there" has_all 20 && mkdir mnt/last && unmount_and_end mnt
}

# While the log can't be written anew, calls wait, and no server runs.
late_failure_waits() {
  start_failing && mkdir store-wal.new && touch store-wal.new/file && owe_failing || return 1
  await grep -q "store-wal.new can't be written" log || return 1
  expect "no server runs" [ "$(ask --status store | sed -n 's/^server  *//p')" = 0 ] && start_waiting waiting || return 1
  rm -r store-wal.new && wait "$waiting" && wait "$owing" || return 1
  keeps "all are there" has_all 21 && unmount_and_end mnt
}

# A disk that fails may have lost what it was to write: the mount doesn't go on without it, and says so.
late_failure_with_hole() {
  start_failing && lose_last store-wal && owe_failing && await isnt_running "$supervisor" && ended 1 || return 1
  expect "it says why ($(tail -n 2 log))" \
    grep -q "gave up: a flush of .*-wal failed, and changes that were acknowledged can't be read again" log || return 1
  expect "the list says so" grep -q "gave up: acknowledged changes are lost" store-mount.log || return 1
  expect "a look at the mount is an error" is_refused mnt && umount -l mnt && rm fails && export FUSEKEEP=$engine && options= || return 1
  start store mnt log-again && expect "the next mount has what is left" [ "$(find mnt -mindepth 1 | wc -l)" -lt 20 ] && unmount_and_end mnt
}

# Zeros in place of the last bytes of a log, before those that it has ahead.
lose_last() {
  python3 - "$1" <<'END'
import sys
with open(sys.argv[1], "r+b") as log:
    end = len(log.read().rstrip(b"\0"))
    log.seek(end - 100)
    log.write(bytes(100))
END
}

# The supervisor flushes the log where a stopped server can't.
hanging_flushes() {
  local server owed
  start store mnt log && mkdir mnt/{1..20} && trace_supervisor calls -f -ttt -e trace=fdatasync && owe_stopped made || return 1
  await has_flushes_since "$owed" 1 || return 1
  sleep 8
  expect "once ($(cat calls))" has_flushes_since "$owed" 1 && expect "without an error" grep -qE 'fdatasync.*= 0$' calls || return 1
  kill "$tracer"
  kill -CONT "$server"
  expect "the server goes on" mkdir mnt/last || return 1
  expect "it is the same" [ "$(ask --server store)" = "$server" ] && unmount_and_end mnt
}

# Whether strace has seen so many flushes of the log since a moment: has_flushes_since MOMENT COUNT
has_flushes_since() {
  [ "$(awk -v moment="$1" '$2 >= moment && /fdatasync\([0-9]*<.*store-wal>/' calls | wc -l)" -eq "$2" ]
}

# The same where that flush fails: the server is killed, and the log is written anew.
hanging_fails() {
  local server owed count
  start store mnt log && mkdir mnt/{1..20} && trace_supervisor calls -f -e trace=fdatasync -e inject=fdatasync:error=EIO || return 1
  owe_stopped made && await has_lines_of 1 "a flush of .*-wal failed: Input/output error" || return 1
  await has_lines_of 1 "so it was written anew" || return 1
  kill "$tracer"
  wait "$tracer"
  count=$(ls -d mnt/made-* | wc -l)
  keeps "all are there" has_all $((20 + count)) && expect "the last one is there" [ "$count" -gt 0 ] && unmount_and_end mnt
}

# A server is killed in a flush that fails, and takes the error along. The supervisor has it by its own descriptor.
killed_in_flush() {
  start_failing FAIL_KILLS=1 && trace_supervisor calls -e trace=fdatasync -e inject=fdatasync:error=EIO && owe_failing || return 1
  await has_lines_of 1 "a flush of .*-wal failed: Input/output error" || return 1
  await has_lines_of 1 "so it was written anew" && wait "$owing" || return 1
  kill "$tracer"
  wait "$tracer"
  grep -A 1 -m 1 "killed by signal 9" log | tail -n 1 >line
  expect "it is the first thing after the death ($(<line))" grep -q "a flush of .*-wal failed: Input/output error" line || return 1
  keeps "all are there" has_all 20 && unmount_and_end mnt
}

# Follows the supervisor by strace and, with -f, its children until they are engines: trace_supervisor FILE WORD..
trace_supervisor() {
  local file=$1
  shift
  strace -b execve -y -o "$file" "$@" -p "$supervisor" 2>/dev/null &
  tracer=$!
  await is_traced "$supervisor"
}

# When the mount gives up, its calls end, and then the log is flushed.
flushed_at_end() {
  local server owed count
  write_broken_engine
  start store mnt log && mkdir mnt/{1..20} && trace_supervisor calls -e trace=fdatasync,close && touch broken && owe_stopped made || return 1
  kill -KILL "$server"
  await isnt_running "$supervisor" && ended 1 || return 1
  expect "the device is closed, and then the log is flushed" flushes_after_device || return 1
  umount -l mnt && export FUSEKEEP=$engine && options= && start store mnt log-again || return 1
  count=$(ls -d mnt/made-* | wc -l)
  keeps "all are there" has_all $((20 + count)) && keeps "the last one is there" [ "$count" -gt 0 ] && unmount_and_end mnt
}

flushes_after_device() {
  sed '1,/close([0-9]*<\/dev\/fuse>) *= 0/d' calls | grep -q 'fdatasync([0-9]*<.*store-wal>) *= 0'
}
