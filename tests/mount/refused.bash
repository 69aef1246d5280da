# Phases of tests/mount/run: refused mounts. Each runs in a folder of its own.

# Runs fusekeep-mount, which must end with this status, print this line, mount nothing, and leave no file that wasn't there, without
# another server after one that failed: refuses STATUS LINE WORD..
refuses() {
  local status=$1 line=$2 ended before
  shift 2
  before=$(files_here)
  timeout -k 1 "$patience" "$@" mnt 2>line
  ended=$?
  expect "the status is $status (it is $ended, and says: $(cat line))" [ "$ended" -eq "$status" ] || return 1
  expect "no server follows another one" [ "$(grep -cE "the next one runs in|gave up: 10 servers" line)" -eq 0 ] || return 1
  expect "it says: $line (it says: $(cat line))" grep -qxE "$line" line || return 1
  expect "it leaves the files: $before (it leaves: $(files_here))" [ "$(files_here)" = "$before" ] || return 1
  expect "nothing is mounted" isnt_mounted "$PWD/mnt"
}

# The files of this folder and those below it, but for what this test writes and what is mounted.
files_here() {
  find . -xdev -not -path './mnt/*' -not -name line -not -name said -not -name alive | sort | xargs
}

refusals() {
  refuses 2 ".*usage: .*" "$program" || return 1
  refuses 2 ".*the option no_such_option isn't known" "$program" -o no_such_option store || return 1
  refuses 2 ".*size=10X: no number of bytes" "$program" -o size=10X store || return 1
  refuses 2 ".*size=0: a store has room for 4096 bytes at least" "$program" -o size=0 store || return 1
  refuses 2 ".*the option gus isn't known" "$program" -o gus store || return 1
  refuses 2 ".*--bogus isn't known, or lacks its word" "$program" --bogus store || return 1
  refuses 2 ".*usage: .*" "$program" --status --server store || return 1
  refuses 2 ".*the option uid=1 can't be given: a store has the owner of each file" "$program" -o uid=1 store || return 1
  refuses 2 ".*the option allow_root can't be given: .*" "$program" -o allow_root store || return 1
  refuses 2 ".*size=8388608T: no number of bytes" "$program" -o size=8388608T store || return 1
  refuses 2 ".*a plain store has no size" "$program" -o size=1M,profile=plain store || return 1
  refuses 2 ".*the profile none isn't known: it is plain or everyday" "$program" -o profile=none store || return 1
  "$program" store missing 2>line
  expect "no mountpoint has status 1" [ $? -eq 1 ] || return 1
  mkdir alone && cp "$program" alone
  refuses 1 ".*the engine, fusekeep, is neither .*" env -u FUSEKEEP PATH="$PWD/mnt" "$PWD/alone/fusekeep-mount" store || return 1
  refuses 1 ".*the engine, no-such-engine, is not on PATH" env FUSEKEEP=no-such-engine "$program" store || return 1
  refuses 1 ".*: ./mnt: Permission denied" env FUSEKEEP=./mnt "$program" store || return 1
  expect "no store is made" [ ! -e store ] || return 1
  expect "no lock is made" [ ! -e store-mount ] || return 1
  printf 'this is no store, and was never one' >junk
  refuses 3 "store: NotAStore; $PWD/junk is no database of SQLite" "$program" junk || return 1
  (make_engine full <<<'echo "store: Sql" >&2; echo "$3: no room left" >&2; exit 3')
  refuses 3 "store: Sql; $PWD/store: no room left" env FUSEKEEP=./full "$program" store || return 1
  refuses 3 "fusekeep-mount: $PWD has no room left" env FUSEKEEP=./full "$program" store || return 1
  mkdir first below
  refuses 1 ".*: No such file or directory" "$program" no-folder/store || return 1
  refuses 1 ".*: mnt/store lies below $PWD/mnt, which would hide it" "$program" mnt/store || return 1
  touch twice && ln twice twice-again
  refuses 1 ".*: twice has another name .a hard link.: remove that name first" "$program" twice || return 1
  start store first log || return 1
  ln -s store other-name
  refuses 1 ".*/store is mounted already: process $supervisor serves it on $PWD/first" "$program" other-name || return 1
  expect "the first one goes on" mkdir first/a || return 1
  stop_and_end
}

# Whether the kernel has a lock on a file.
is_locked() {
  grep -q ":$(stat -c %i "$1") " /proc/locks
}

# A server that was started by hand holds the store. It makes a data file for a plain store, too, which stays empty and goes when it ends.
held_store() {
  mkfifo silence
  "$engine" serve --db store --fresh <silence >answers 2>counts &
  local server=$!
  exec 9>silence
  await is_locked store && await [ -e store-data ] || return 1
  refuses 1 "fusekeep-mount: store is held by process $server .fusekeep., another server or a program that has it open" "$program" store || return 1
  "$engine" serve --db store --resume </dev/null 2>line
  expect "the engine's status is 3" [ $? -eq 3 ] || return 1
  expect "the engine reports it" [ "$(cat line)" = $'store: Sql\nstore is in use by another server' ] || return 1
  exec 9>&-
  wait "$server"
  expect "the first server ends well" [ $? -eq 0 ] || return 1
  start store mnt log && unmount_and_end mnt
}

# An engine has /dev/null as its input. Where the caller can't open it, none is started.
null_of_root() {
  touch null && chmod 600 null && mkdir own && chown 65534:65534 own || return 1
  # shellcheck disable=SC2016
  refuses 1 "fusekeep-mount: /dev/null: Permission denied" \
    unshare --mount sh -c 'mount --bind null /dev/null && exec "$@"' - $user "$program" own/store
}

# A file, a folder and a file system that can't be written.
unwritable_store() {
  touch store && chmod 444 store
  refuses 1 "fusekeep-mount: store can't be written: Permission denied" $user "$program" store || return 1
  mkdir folder && touch folder/store && chmod 600 folder/store && chown 65534:65534 folder/store
  refuses 1 "fusekeep-mount: .*/folder/store-mount can't be written: Permission denied" $user "$program" folder/store || return 1
  touch folder/store-mount && chmod 600 folder/store-mount && chown 65534:65534 folder/store-mount
  refuses 1 "fusekeep-mount: .*/folder/store-wal can't be written: Permission denied" $user "$program" folder/store || return 1
  mkdir disk && mount -t tmpfs none disk && touch disk/store && mount -o remount,ro disk || return 1
  refuses 1 "fusekeep-mount: disk/store can't be written: Read-only file system" "$program" disk/store || return 1
  unmount disk
}
