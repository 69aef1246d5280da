# Phases of tests/mount/run: who may open the files of a store, and who locks them. Each runs in a folder of its own.

# Whether the files of a store have this mode and owner: are_owned MODE OWNER FILE..
are_owned() {
  local mode=$1 owner=$2 file
  shift 2
  for file; do
    expect "$file has mode $mode and owner $owner ($(stat -c '%a %u' "$file"))" [ "$(stat -c '%a %u' "$file")" = "$mode $owner" ] || return 1
  done
}

# All files of a new store are for its owner alone, whatever the umask is. A store that others can read is named, and one that they can
# write is refused. Root may use another's store, whose files stay that user's.
private_files() {
  umask 0
  start store mnt log && python3 "$here/killer.py" "$supervisor" 1 || return 1
  umask 022
  mkdir mnt/a && await [ -e store-reserve ] && are_owned 600 0 store store-wal store-mount store-mount.log store-reserve || return 1
  unmount_and_end mnt && are_owned 600 0 store store-wal || return 1
  chmod 604 store && start store mnt log-read && unmount_and_end mnt || return 1
  expect "it names a store that others can read" \
    grep -qx "fusekeep-mount: others can read store, and what was removed from it: run chmod 600 store store-wal" log-read || return 1
  chmod 620 store || return 1
  refuses 1 "fusekeep-mount: others can write store: run chmod 600 store store-wal first" "$program" store || return 1
  chmod 600 store && chmod 777 . || return 1
  cp store others && copy_contents store others && chown 65534:65534 others* && start others mnt log-others && python3 "$here/killer.py" "$supervisor" 1 || return 1
  mkdir mnt/b && await [ -e others-reserve ] && are_owned 600 65534 others others-wal others-mount others-mount.log others-reserve || return 1
  unmount_and_end mnt || return 1
  refuses 1 "fusekeep-mount: store belongs to another user" $opener "$program" store
}

# Another user, who may open all files.
opener="setpriv --reuid=65534 --regid=65534 --clear-groups --inh-caps=+dac_override --ambient-caps=+dac_override"

# A link, a pipe or another user's file in the place of one beside the store: nothing is made elsewhere, and the reason is said at once. A
# store may be named by a link, and its files are beside the file itself.
links_beside() {
  local suffix
  mkdir elsewhere
  ln -s "$PWD/elsewhere/made" store-mount
  refuses 1 "fusekeep-mount: $PWD/store-mount is a symbolic link" "$program" store || return 1
  rm store-mount && mkfifo store-mount
  refuses 1 "fusekeep-mount: $PWD/store-mount isn't a regular file of the store's owner" "$program" store || return 1
  rm store-mount && touch store-mount && chown 65534 store-mount
  refuses 1 "fusekeep-mount: $PWD/store-mount isn't a regular file of the store's owner" "$program" store || return 1
  rm store-mount && ln -s elsewhere/made dangling
  refuses 1 "fusekeep-mount: dangling is a symbolic link" "$program" dangling || return 1
  for suffix in -reserve -mount.log; do
    ln -s "$PWD/elsewhere/made" "store$suffix"
  done
  start store mnt log && python3 "$here/killer.py" "$supervisor" 1 && mkdir mnt/a && unmount_and_end mnt || return 1
  expect "nothing was made elsewhere ($(ls elsewhere))" [ -z "$(ls elsewhere)" ] || return 1
  mkdir links && ln -s ../store links/other && start links/other mnt log-link || return 1
  expect "the store is that of the link" [ "$(ls mnt)" = a ] && expect "nothing lies beside the link" [ "$(ls links)" = other ] || return 1
  unmount_and_end mnt
}

# A store that was just made goes again with its log, where it can't be mounted.
new_store_goes() {
  local number=99999999999999999999
  refuses 1 "fusekeep-mount: $PWD/mnt: Invalid argument" "$program" -o max_read=$number store || return 1
  start store mnt log && unmount_and_end mnt || return 1
  refuses 1 "fusekeep-mount: $PWD/mnt: Invalid argument" "$program" -o max_read=$number store || return 1
  ! can_mount_as_user || { mkdir own && chown 65534 own; } || return 1
  ! can_mount_as_user || refuses 1 "fusekeep-mount: fusermount3 didn't mount $PWD/mnt" $user "$program" own/store
}

# The engine makes the root of a new store for the caller, and for the owner of an empty file that root mounts.
maker() {
  (make_engine words <<<'echo "$*" >&2; exit 3')
  mkdir own && chown 65534:65534 own || return 1
  if can_run_as_user; then
    refuses 3 "serve --db $PWD/own/store --owner 65534:65534 .*" env FUSEKEEP=./words $user "$program" own/store || return 1
  else
    echo "maker: a caller who isn't root: skipped, only root opens /dev/null"
  fi
  refuses 3 "serve --db $PWD/own/store --owner 0:0 .*" env FUSEKEEP=./words "$program" own/store || return 1
  touch own/store && chown 65534:100 own/store || return 1
  refuses 3 "serve --db $PWD/own/store --owner 65534:100 .*" env FUSEKEEP=./words "$program" own/store || return 1
  start own/store mnt log && expect "its root is that user's" [ "$(stat -c '%u:%g %a' mnt)" = "65534:100 755" ] && stop_and_end || return 1
  start new mnt log-new && expect "root's is root's" [ "$(stat -c '%u:%g %a' mnt)" = "0:0 755" ] && stop_and_end
}

# Another process tries to lock a mounted store without a pause, as a reader does, while servers are killed: it never gets the lock, and
# no server finds the store in use.
readers_lock() {
  start store mnt log || return 1
  python3 - "$PWD/store" >locked <<'END' &
import fcntl, os, struct, sys, time
file = os.open(sys.argv[1], os.O_RDWR)
lock = struct.pack("hhlli4x", fcntl.F_RDLCK, os.SEEK_SET, 1 << 30, 512, 0)
while True:
    try:
        fcntl.fcntl(file, 37, lock)
    except OSError:
        continue
    print("locked", flush=True)
    time.sleep(3600)
END
  local reader=$!
  python3 "$here/killer.py" "$supervisor" 12 0.3 && mkdir mnt/a || return 1
  kill "$reader"
  expect "the reader got no lock" [ ! -s locked ] || return 1
  expect "all were killed" [ "$(kills_in log) $(grep -c "in use by another server" store-mount.log)" = "12 0" ] || return 1
  unmount_and_end mnt
}

# A process that has locked the lock's file is no mount.
strangers_lock() {
  start store mnt log && unmount_and_end mnt || return 1
  flock -s store-mount sleep infinity &
  local stranger=$!
  await is_locked store-mount || return 1
  start store mnt log-stranger && mkdir mnt/a second || return 1
  "$program" store second 2>line
  expect "a second mount is refused" grep -q "/store is mounted already: process $supervisor serves it on $PWD/mnt" line || return 1
  unmount_and_end mnt && kill "$stranger"
}

# A mount that is slow to lock the lock's file, which it has made, doesn't remove that of another: one of two is mounted, and has it.
one_lock() {
  local slow
  mkdir second
  : >log
  strace -qq -o /dev/null -e trace=flock -e inject=flock:delay_enter=3000000:when=1 "$program" -f store mnt 2>log &
  slow=$!
  await [ -e store-mount ] || return 1
  "$program" store second 2>line
  await has_ended_or_mounted "$slow" || return 1
  expect "one is mounted" [ "$(mounts | grep -c "^$PWD/")" -eq 1 ] || return 1
  expect "it has the lock's file" is_locked store-mount || return 1
  expect "it can be found" ask --server store || return 1
  unmount "$(mounts | grep "^$PWD/")" || return 1
  wait "$slow"
  await isnt_locked store-mount
}

has_ended_or_mounted() {
  grep -q "is mounted on" log || ! kill -0 "$1"
}

isnt_locked() {
  ! is_locked "$1"
}

# A folder whose name has the words of a full disk.
words_in_path() {
  (make_engine busy <<<'echo "store: Sql" >&2; echo "$3 is in use by another server" >&2; exit 3')
  mkdir "a: no room left" && refuses 3 "store: Sql; .*" env FUSEKEEP=./busy "$program" "a: no room left/store" || return 1
  expect "no disk is taken for full ($(cat line))" [ "$(grep -c "has no room" line)" -eq 0 ]
}
