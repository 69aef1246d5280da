# Phases of tests/mount/run: servers are killed while processes work. Each runs in a folder of its own.

# Workers and their end.

start_workers() {
  local number share=$((creations / processes))
  workers=()
  rm -f stop
  for ((number = 0; number < processes; number++)); do
    python3 "$here/workload.py" work mnt "$number" "model-$number" stop "$share" &
    workers+=($!)
  done
}

# Whether each worker has made something.
have_made() {
  local number
  for ((number = 0; number < processes; number++)); do
    [ -n "$(ls "mnt/own-$number")" ] || return 1
  done
}

end_workers() {
  local worker failed=0
  touch stop
  for worker in "${workers[@]}"; do
    wait "$worker" || failed=1
  done
  return "$failed"
}

# Waits until a mount has had so many requests more.
works_on() {
  local before
  before=$(value_of requests store) && await has_requests $((before + $1))
}

has_requests() {
  [ "$(value_of requests store)" -ge "$1" ]
}

compare_tree() {
  python3 "$here/workload.py" compare mnt model-*
}

compare_again() {
  start store mnt "$1" && compare_tree
}

# Servers are killed while processes work. Then the mount is unmounted from outside, or stopped by a signal while they still work.
round() {
  local log=log-$1 status=0
  start store mnt "$log" || return 1
  start_workers
  await have_made || return 1
  python3 "$here/killer.py" "$supervisor" "$2" || status=1
  if [ "$3" = stop ]; then
    kill -TERM "$supervisor"
    python3 "$here/killer.py" "$supervisor" 5 || status=1
    await isnt_mounted "$PWD/mnt" || status=1
    end_workers && ended 0 || return 1
  else
    end_workers && compare_tree && unmount_and_end mnt || return 1
  fi
  compare_again "$log-again" && unmount_and_end mnt && compare_again "$log-last" && stop_and_end && return "$status"
}

rounds() {
  local number=1 ends kills=${kills:-200} processes=16
  while :; do
    ends=$([ $((number % 2)) -eq 1 ] && echo stop || echo unmount)
    note_progress
    round "$number" $((kills < most_kills_of_a_round ? kills : most_kills_of_a_round)) "$ends" || return 1
    [ "$(kills_in log-*)" -lt "$kills" ] || [ "$SECONDS" -lt $((60 * minutes)) ] || return 0
    number=$((number + 1))
  done
}

# Each server has --wary. A mount without it serves what they left, and the other way round.
wary() {
  options=wary
  round 1 10 stop && options= && round 2 5 unmount || return 1
  options=wary
  compare_again log-3 || return 1
  expect "the server has --wary" has_word "$(ask --server store)" --wary || return 1
  stop_and_end
}

has_word() {
  tr '\0' '\n' <"/proc/$1/cmdline" | grep -qx -e "$2"
}

# One mount, whose servers are killed beside a model of its tree. The seed gives the steps of each writer and how long each server lives.
# A kill loses nothing that the server wrote: the kernel still has it. What a cut of power loses is tried by tests/power and crates/store_tests.
kills() {
  start store mnt log || return 1
  python3 -m mount.kills work mnt store "$supervisor" "${kills:-20}" "$seed" "$profile" models && unmount_and_end mnt || return 1
  python3 -m mount.kills compare-left store models && start store mnt log-next || return 1
  python3 -m mount.kills compare mnt models && unmount_and_end mnt && python3 -m mount.kills compare-next store models
}

# The same random operations on a mount and in a tmpfs give the same, while servers are killed. The tmpfs keeps no times of access, as the
# mount doesn't: a symbolic link on the way to itself would have another one. Each mount has room for so many operations.
differential() {
  local left=$operations number=1 part killer status
  mkdir other && mount -t tmpfs -o noatime none other || return 1
  while [ "$left" -gt 0 ]; do
    part=$((left < operations_of_a_mount ? left : operations_of_a_mount))
    start store mnt "log-$number" || return 1
    python3 "$here/killer.py" "$supervisor" 1000000 0.5 2>/dev/null &
    killer=$!
    python3 -m mount.differ work mnt other "$profile" "$seed-$number" "$part"
    status=$?
    kill "$killer" 2>/dev/null
    [ "$status" -eq 0 ] && unmount_and_end mnt || return 1
    start store mnt "log-$number-next" && python3 -m mount.differ compare mnt other && unmount_and_end mnt || return 1
    left=$((left - part))
    number=$((number + 1))
  done
  unmount other
}

# Of five servers four die as they enter a call of one kind for the Nth time, and one is killed after more than a second.
write_dying_engine() {
  make_engine dying-engine <<END
[ "\$4" = --resume ] || LD_PRELOAD=\$PRELOAD exec "$engine" "\$@"
lives=\$(wc -c <"$PWD/lives")
printf . >>"$PWD/lives"
[ \$((lives % 5)) -ne 4 ] || LD_PRELOAD=\$PRELOAD exec "$engine" "\$@"
case \$((lives % 5)) in
  0) calls=read,readv ;;
  1) calls=write,writev ;;
  2) calls=pwrite64,pwritev ;;
  3) calls=fsync,fdatasync ;;
esac
place=\$((lives / 5 * (lives / 5) + 1))
touch "$PWD/alive"
exec strace -D -qq -o /dev/null -E "LD_PRELOAD=\$PRELOAD" -e trace=\$calls -e inject=\$calls:signal=KILL:when=\$place "$engine" "\$@"
END
  : >lives
}

can_trace() {
  sh -c 'strace -qq -o /dev/null -e inject=read:signal=KILL cat /dev/null; exit $?' 2>/dev/null
  [ $? -eq 137 ]
}

has_lives() {
  [ "$(wc -c <lives)" -ge "$1" ]
}

at_calls() {
  local killer number processes=16
  write_dying_engine
  start store mnt log || return 1
  start_workers
  python3 "$here/killer.py" "$supervisor" 1000000 1.2 2>/dev/null &
  killer=$!
  for number in {1..40}; do
    await has_lives "$number" || return 1
  done
  kill "$killer"
  end_workers && compare_tree && unmount_and_end mnt && compare_again log-again && stop_and_end
}

# Any number of kills ends no mount, whether processes work on it or none does.
kills_without_end() {
  start store mnt log && python3 "$here/killer.py" "$supervisor" 15 0.4 || return 1
  start_workers
  python3 "$here/killer.py" "$supervisor" 15 0.4 || return 1
  end_workers && compare_tree || return 1
  expect "it didn't give up" [ "$(grep -c "gave up" log) $(kills_in log)" = "0 30" ] || return 1
  unmount_and_end mnt
}

# What `store` says of the deaths in the list.
deaths_summed() {
  echo "deaths=$(wc -l <store-mount.log) longest_restart=$(grep -o 'restart=[0-9.]*' store-mount.log | sed 's/.*=//' | sort -n | tail -n 1)"
}

# Kills so many servers, each when it has asked for the pending requests and the supervisor has seen that.
kill_asking() {
  local number server
  for ((number = 0; number < $1; number++)); do
    await has_value state serving store && server=$(ask --server store) && kill -KILL "$server" && await has_other_server "$server" || return 1
  done
}

# The deaths of servers are listed beside the store, with the time and how long the next one took, and summed up by `store`.
deaths() {
  local line='^20[0-9-]*T[0-9:]*[.][0-9]{3}Z'
  write_broken_engine
  start store mnt log && kill_asking 3 && ls mnt && unmount_and_end mnt || return 1
  expect "three were killed" [ "$(grep -cE "$line signal=9 lived=[0-9]+[.][0-9]{3} restart=[0-9]+[.][0-9]{3}\$" store-mount.log)" -eq 3 ] || return 1
  expect "that is all" [ "$(wc -l <store-mount.log)" -eq 3 ] || return 1
  expect "they are summed up" [ "$("$engine" store store | tail -n 1)" = "$(deaths_summed)" ] || return 1
  start store mnt log-broken && touch broken && kill -KILL "$(ask --server store)" && ended 1 || return 1
  expect "one was killed" [ "$(grep -cE "$line signal=9 lived=[0-9.]+ restart=-\$" store-mount.log)" -eq 1 ] || return 1
  expect "ten ended" [ "$(grep -cE "$line status=3 lived=[0-9.]+ restart=- store: Damaged(; gave up: 10 servers .*)?\$" store-mount.log)" -eq 10 ] || return 1
  expect "the last line has the reason" grep -qE "store: Damaged; gave up: 10 servers in a row ended by themselves" <(tail -n 1 store-mount.log) || return 1
  expect "all are summed up" [ "$("$engine" store store | tail -n 1)" = "$(deaths_summed)" ] || return 1
  umount -l mnt
}

# Processes that only read leave no record and no byte, however many servers are killed under them.
reads_leave_nothing() {
  local number readers=() records bytes kills=${kills:-40}
  start store mnt log || return 1
  for number in {1..4}; do
    python3 "$here/readers.py" "mnt/$number" "ready-$number" stop >"count-$number" &
    readers+=($!)
  done
  await [ -e ready-1 -a -e ready-2 -a -e ready-3 -a -e ready-4 ] && await has_handles 84 || return 1
  records=$(value_in_store records) bytes=$(bytes_of_store)
  while [ "$(kills_in log)" -lt "$kills" ]; do
    note_progress
    python3 "$here/killer.py" "$supervisor" 20 || return 1
  done
  expect "$(value_in_store records) records, as before, when there were $records" [ "$(value_in_store records)" = "$records" ] || return 1
  expect "$(bytes_of_store) bytes, as before, when there were $bytes" [ "$(bytes_of_store)" = "$bytes" ] || return 1
  touch stop
  wait "${readers[@]}" && echo "$(($(cat count-* | paste -sd+))) calls of readers under $(kills_in log) kills: no record" && unmount_and_end mnt
}

# A number that `store` prints.
value_in_store() {
  "$engine" store store | sed -n "s/^$1=//p"
}

# Whether so many files and directories are open, so that no RELEASE is to come any more.
has_handles() {
  [ "$(value_in_store handles)" = "$1" ]
}

# The process that asks for the root is killed before the first server serves: another one asks.
killed_probe() {
  make_engine slow-engine <<END
[ "\$4" != --resume ] || until [ -e "$PWD/may-serve" ]; do sleep 0.1; done
LD_PRELOAD=\$PRELOAD exec "$engine" "\$@"
END
  "$program" -f store mnt 2>log &
  supervisor=$!
  await has_probe || return 1
  kill -KILL "$probe"
  await grep -q "the process that asked for the root was killed by signal 9: another one asks" log || return 1
  touch may-serve
  await_mount log && unmount_and_end mnt
}

# Whether the supervisor has two children: a server, and the process that asks for the root.
has_probe() {
  local child has_server=
  probe=
  for child in $(cat "/proc/$supervisor/task/$supervisor/children"); do
    if has_word "$child" serve; then has_server=1; else probe=$child; fi
  done
  [ -n "$has_server" ] && [ -n "$probe" ]
}

# A store has room for so many bytes: a file takes no more, and one that is removed gives its room back, also if it was open.
small() {
  options=size=1M
  start store mnt log || return 1
  expect "df has its size" [ "$(df -B1 --output=size,used mnt | tail -n 1 | xargs)" = "1048576 0" ] || return 1
  head -c 1044480 /dev/zero >mnt/first || return 1
  expect "a file of a block has room" cp /etc/hostname mnt/second || return 1
  if ln -s first mnt/third 2>line; then
    echo "a link is made without room"
    return 1
  fi
  expect "it says so" grep -q "No space left" line || return 1
  exec 9<mnt/first
  rm mnt/first
  expect "an open file counts" [ "$(df -B1 --output=used mnt | tail -n 1 | xargs)" = 1048576 ] || return 1
  exec 9<&-
  await has_room_for_link || return 1
  unmount_and_end mnt
}

has_room_for_link() {
  ln -s second mnt/third
}

# Files come and go, and the store doesn't grow after the first thousand.
churn() {
  local first last
  start store mnt log && churns 1000 && first=$(bytes_of_store) && churns "$operations" && last=$(bytes_of_store) || return 1
  echo "$first bytes after 1000 files, $last after $operations more"
  expect "it doesn't grow" [ "$last" -le $((first + 65536)) ] || return 1
  unmount_and_end mnt
}

churns() {
  python3 - "$1" <<'END'
import os, sys
for number in range(int(sys.argv[1])):
    with open(f"mnt/{number}", "xb") as file:
        file.write(b"x" * (number % 5000))
    os.unlink(f"mnt/{number}")
    if number % 1000 == 0:
        os.utime("alive")
END
}

bytes_of_store() {
  find . -maxdepth 1 \( -name store -o -name store-wal -o -name store-data \) -exec cat {} + | wc -c
}

# A request is committed, its server dies before it answers, and its caller is killed after the next server has asked for the pending requests
# and before it reads one. The kernel drops the request. It has names, attributes and contents for a day, but asks anew for those of the
# request: what it did is seen at once. A name is there within the 10 s for which the kernel may know that it is absent.
killed_caller() {
  write_forgetting_engine
  start store mnt log && mkdir mnt/place mnt/place/{gone,one} && echo old >mnt/place/file && echo old >mnt/place/over && ln -s one mnt/place/link || return 1
  forgets 11 rmdir mnt/place/gone && keeps "the directory is gone" isnt_there mnt/place/gone || return 1
  forgets 10 rm mnt/place/link && keeps "the link is gone" isnt_there mnt/place/link || return 1
  forgets 16 dd status=none if=/proc/self/comm of=mnt/place/file conv=notrunc && keeps "it is written" [ "$(cat mnt/place/file)" = dd ] || return 1
  forgets 4 truncate -s 9 mnt/place/file && keeps "it has its size" [ "$(stat -c %s mnt/place/file)" = 9 ] || return 1
  forgets 4 chmod 751 mnt/place/one && keeps "it has its mode" [ "$(stat -c %a mnt/place/one)" = 751 ] || return 1
  forgets 12 python3 -c 'import os; os.rename("mnt/place/file", "mnt/place/over")' || return 1
  keeps "the old name is gone" isnt_there mnt/place/file && keeps "the other file is there" [ "$(head -c 2 mnt/place/over)" = dd ] || return 1
  forgets 9 mkdir mnt/place/made && keeps "the directory is there within 10 s" within 10 [ -d mnt/place/made ] || return 1
  keeps "its parent has one link more" [ "$(stat -c %h mnt/place)" = 4 ] && unmount_and_end mnt
}

isnt_there() {
  ! [ -e "$1" ] && ! [ -L "$1" ]
}

# A server dies before it answers a request of the opcode in the file `opcode`, while the file `dies` is there. The next one reads nothing
# while the file is there that it makes of that.
write_forgetting_engine() {
  "${CC:-cc}" -std=c11 -O2 -Wall -Wextra -shared -fPIC -o crash.so "$here/crash.c" -ldl || return 1
  echo 0 >opcode
  make_engine forgetting-engine <<END
[ "\$4" = --resume ] || LD_PRELOAD=\$PRELOAD exec "$engine" "\$@"
[ ! -e "$PWD/dies" ] || mv "$PWD/dies" "$PWD/holds"
export CRASH_AT=write CRASH_OPCODE=\$(<"$PWD/opcode") CRASH_WHILE=$PWD/dies CRASH_HOLDS=$PWD/holds
LD_PRELOAD=$PWD/crash.so:\$PRELOAD exec "$engine" "\$@"
END
}

# Runs a command in the background, whose request of this opcode is committed and dropped: forgets OPCODE WORD..
forgets() {
  local caller first
  echo "$1" >opcode
  kill -KILL "$(ask --server store)"
  ls -lR mnt >/dev/null && cat mnt/place/* 2>/dev/null >contents
  [ -e mnt/place/made ]
  first=$(ask --server store) && touch dies || return 1
  "${@:2}" &
  caller=$!
  await is_asked_by_other "$first" || return 1
  kill -KILL "$caller"
  wait "$caller" 2>/dev/null
  expect "the caller was killed in $*" [ $? -eq 137 ] && rm holds
}

is_traced() {
  ! grep -q "^TracerPid:.0$" "/proc/$1/status"
}

# Whether another server than this one runs and has asked for the pending requests.
is_asked_by_other() {
  has_other_server "$1" && has_value state serving store
}
