# Phases of tests/mount/run: how often a mount opens its store, and the server that begins it. Each runs in a folder of its own.

# A program that runs fusekeep-mount, and notes its calls and those of its children: make_traced NAME
make_traced() {
  printf '#!/bin/sh\nexec strace -D -f -qq -o "%s" -e trace=execveat,openat,fsync,fdatasync,recvmsg "%s" "$@"\n' "$1-calls" "$program" >"$1"
  chmod 755 "$1"
}

# How many engines were started, and how often one has opened the store. Before, it tries whether there is one.
openings_in() {
  echo "$(grep -c 'execveat(.*"serve"' "$1") $(grep -v O_EXCL "$1" | grep -cF "openat(AT_FDCWD, \"$PWD/store\", O_RDWR")"
}

has_openings() {
  expect "$2: the store is opened $1 times by as many engines (it has $(openings_in traced-calls))" [ "$(openings_in traced-calls)" = "$1 $1" ]
}

# An opening reads the whole store. A mount opens it once, whether it is new or not, and each later server once.
openings() {
  local plain=$program program=$PWD/traced
  program=$plain make_traced traced && program=$plain make_traced copier || return 1
  start store mnt log && mkdir mnt/one && has_openings 1 "a new store" || return 1
  kill -KILL "$(program=$plain ask --server store)" && mkdir mnt/two && has_openings 2 "a killed server" || return 1
  program=$plain request --restart store && mkdir mnt/three && has_openings 3 "a new program" || return 1
  "$plain" -o remount,ro store mnt && "$plain" -o remount,rw store mnt && program=$plain ask --status store >status && has_openings 3 "a remount" || return 1
  ./copier --backup copy store >copied && has_openings 3 "a backup" || return 1
  expect "the copy is opened once ($(openings_in copier-calls))" [ "$(openings_in copier-calls)" = "1 0" ] || return 1
  unmount_and_end mnt && has_openings 3 "the end" || return 1
  start store mnt log-next && keeps "all are there" [ "$(ls mnt | xargs)" = "one three two" ] && has_openings 1 "the same store" || return 1
  expect "one server was started" [ "$(program=$plain ask --status store | sed -n 's/^servers  *//p')" = 1 ] || return 1
  unmount_and_end mnt && has_openings 1 "its end"
}

# An engine whose first server is run by these words: make_first_engine WORD..
make_first_engine() {
  make_engine first-engine <<END
[ "\$4" != --resume ] || LD_PRELOAD=\$PRELOAD exec "$engine" "\$@"
export FUSEKEEP_DEVICE=\$DEVICE
exec $* "$engine" "\$@"
END
}

# An engine whose first server is killed as it enters a call for the first time: kill_first_at CALL
kill_first_at() {
  make_first_engine strace -D -qq -o /dev/null -E '"LD_PRELOAD=$PRELOAD"' -e "trace=$1" -e "inject=$1:signal=KILL:when=1"
}

# Whether the first server dies, and the next one goes on with the mount: goes_on MADE ALL
goes_on() {
  start store mnt "log-$1" && mkdir "mnt/$1" && keeps "all are there" [ "$(ls mnt | xargs)" = "$2" ] || return 1
  expect "one server died" [ "$(ask --status store | sed -n 's/^deaths  *//p')" = 1 ] && unmount_and_end mnt
}

# The first server dies when it has begun the mount: before it gets the device, when it has it, and when it has read INIT.
first_dies() {
  kill_first_at recvmsg && goes_on one one || return 1
  kill_first_at dup2 && goes_on two "one two" || return 1
  "${CC:-cc}" -std=c11 -O2 -Wall -Wextra -shared -fPIC -o crash.so "$here/crash.c" -ldl || return 1
  make_first_engine env CRASH_AT=read CRASH_OPCODE=26 '"LD_PRELOAD='"$PWD"'/crash.so:$PRELOAD"' && goes_on three "one three two"
}

# An engine that ends before it has begun the mount is no server: nothing is mounted, and no other one is started.
first_fails() {
  kill_first_at pwrite64
  refuses 1 "fusekeep-mount: the engine ended, killed by signal 9" "$program" store || return 1
  make_first_engine false
  refuses 1 "fusekeep-mount: the engine ended, status 1" "$program" store
}

# The mount has begun in the store, which can't be mounted then: the server ends, and the new store is removed.
first_unmounted() {
  make_engine waiting-engine <<END
touch "$PWD/waits"
until [ -e "$PWD/may-begin" ]; do sleep 0.1; done
FUSEKEEP_DEVICE=\$DEVICE LD_PRELOAD=\$PRELOAD exec "$engine" "\$@"
END
  "$program" -f store mnt 2>log &
  supervisor=$!
  await [ -e waits ] && rmdir mnt && touch may-begin && ended 1 || return 1
  expect "it says why ($(cat log))" grep -qx "fusekeep-mount: $PWD/mnt.*: No such file or directory" log || return 1
  expect "no file is left ($(files_here))" [ -z "$(find . -name 'store*')" ]
}

# The first server of a volatile mount flushes until it has the device, and not after that.
first_flushes() {
  local plain=$program program=$PWD/traced options=volatile first
  program=$plain make_traced traced || return 1
  start store mnt log && mkdir mnt/{1..20} && sync mnt/1 && unmount_and_end mnt || return 1
  first=$(sed -n 's/ .*execveat(.*//p' traced-calls)
  grep "^$first " traced-calls >of-first
  expect "it flushes before" [ "$(sed '/recvmsg(/,$d' of-first | grep -c 'sync(')" -gt 0 ] || return 1
  expect "and not after" [ "$(sed '1,/recvmsg(/d' of-first | grep -c 'sync(')" -eq 0 ]
}

# The store can't be mounted, and the first server doesn't end: it is killed, and the mount is refused all the same.
first_hangs() {
  local status
  timeout -k 1 "$patience" strace -f -qq -o /dev/null -e trace=mount,recvmsg -e inject=mount:error=EBUSY -e inject=recvmsg:signal=STOP "$program" -f store mnt 2>log
  status=$?
  expect "it is refused (status $status)" [ "$status" -eq 1 ] && expect "it says why ($(cat log))" grep -q "mnt: Device or resource busy" log || return 1
  expect "no file is left ($(files_here))" [ -z "$(find . -name 'store*')" ]
}
