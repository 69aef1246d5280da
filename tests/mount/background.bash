# Phases of tests/mount/run: mounts in the background, by fstab and of a user, supervisors that end, and programs on a mount. Each runs in a
# folder of its own.

# In the background, under both names; unmounted from outside and mounted again at once.
background() {
  "$program" -o noatime,allow_other store mnt || return 1
  expect "it is ready" [ "$(ls -A mnt)" = "" ] && echo one >mnt/one || return 1
  expect "other users may read it" [ "$($user ls mnt)" = one ] || return 1
  unmount mnt || return 1
  ln -s "$program" mount.fuse.fusekeep
  ./mount.fuse.fusekeep store mnt -f -o rw || return 1
  expect "-f of mount(8) mounts nothing" isnt_mounted "$PWD/mnt" || return 1
  await ./mount.fuse.fusekeep store mnt -n -o ro,nofail,x-systemd.automount || return 1
  keeps "the file is there" [ "$(cat mnt/one)" = one ] || return 1
  if mkdir mnt/two 2>line; then
    echo "a directory is made in a mount that is read-only"
    return 1
  fi
  expect "it says so" grep -q "Read-only" line || return 1
  unmount mnt && await "$program" store mnt && leave store mnt || return 1
  is_store_of everyday store || return 1
  "$program" -o profile=plain plain-store mnt && leave plain-store mnt && is_store_of plain plain-store || return 1
  "$program" -o profile=everyday plain-store mnt 2>line && leave plain-store mnt || return 1
  expect "it says that a store keeps its profile" grep -q "plain-store has its own profile and size" line || return 1
  is_store_of plain plain-store
}

# Whether a store is of a profile. `store` prints none of a plain one.
is_store_of() {
  local found
  found=$("$engine" store "$2") && [ "$(sed -n 's/^profile=//p' <<<"$found")" = "${1/#plain/}" ]
}

# By a line of an fstab, in a mount namespace where mount(8) finds its helper. mount(8) passes no PATH on, so the engine lies beside it.

can_overlay() {
  mkdir "$work/overlay"
  # shellcheck disable=SC2016
  unshare --mount sh -c 'mount -t tmpfs none "$0" && mkdir "$0/upper" "$0/work" &&
    mount -t overlay overlay -o "lowerdir=/sbin,upperdir=$0/upper,workdir=$0/work" /sbin' "$work/overlay" 2>/dev/null
}

by_fstab() {
  mkdir programs room && cp "$program" "${program%/*}/fusekeep-gather.so" programs && cp "$engine" programs/fusekeep || return 1
  echo "$PWD/store $PWD/mnt fuse.fusekeep noatime,allow_other,nofail 0 0" >fstab
  cat >in-namespace <<'END'
set -e
trap 'umount -l mnt 2>/dev/null || true' EXIT
mount -t tmpfs none room
mkdir room/upper room/work
mount -t overlay overlay -o lowerdir=/sbin,upperdir=room/upper,workdir=room/work /sbin
ln -s "$PWD/programs/fusekeep-mount" /sbin/mount.fuse.fusekeep
mount -a -T fstab
echo one >mnt/one
mount -a -T fstab
umount mnt
flock -w 600 store-mount true
mount -T fstab "$PWD/mnt"
[ "$(cat mnt/one)" = one ]
umount mnt
END
  unshare --mount env -u FUSEKEEP bash in-namespace
}

# The supervisor itself is killed: its server ends with it, no call hangs, and the store is whole.
killed_supervisor() {
  start store mnt log && echo one >mnt/one || return 1
  kill_supervisor || return 1
  expect "a look at a mount without a supervisor is an error" is_refused mnt || return 1
  umount -l mnt && start store mnt log || return 1
  keeps "the file is there" [ "$(cat mnt/one)" = one ] || return 1
  unmount_and_end mnt
}

# An engine that can't serve: broken by a file beside it, from the first server on or once the mount is ready. It may take some seconds.
write_broken_engine() {
  make_engine broken-engine <<END
if [ -e "$PWD/broken" ] && [ "\$4" = --resume ]; then
  sleep ${1-0}
  echo "store: Damaged" >&2
  exit 3
fi
LD_PRELOAD=\$PRELOAD exec "$engine" "\$@"
END
}

gives_up_at_first() {
  write_broken_engine
  touch broken
  "$program" store mnt 2>log
  expect "it ends with status 1" [ $? -eq 1 ] || return 1
  expect "it says why" grep -q "gave up: 10 servers .* status 3: store: Damaged" log || return 1
  expect "nothing is mounted" isnt_mounted "$PWD/mnt"
}

# A server that takes long to open the store has served no longer.
gives_up_later() {
  write_broken_engine 1.2
  start store mnt log || return 1
  touch broken
  python3 "$here/killer.py" "$supervisor" 1 0.5 || return 1
  expect "a look at a mount without a server is an error" is_refused mnt || return 1
  ended 1 || return 1
  expect "it says why" grep -q "gave up: 10 servers .* status 3: store: Damaged" log || return 1
  umount -l mnt
}

# Mounted by fusermount3, of a user who isn't root.

# Whether an engine of such a user can be started. Its input and output are /dev/null.
can_run_as_user() {
  $user /bin/bash -c ': <>/dev/null' 2>/dev/null
}

can_mount_as_user() {
  command -v fusermount3 >/dev/null && can_run_as_user && $user sh -c ': <>/dev/fuse' 2>/dev/null
}

as_user() {
  chown -R 65534:65534 .
  $user "$program" store mnt || return 1
  expect "the root of the new store is the user's" [ "$($user stat -c '%u:%g %a' mnt)" = "65534:65534 755" ] || return 1
  expect "the user makes a file" $user sh -c 'echo one >mnt/one' || return 1
  expect "no other user may read it" [ -z "$(ls mnt 2>/dev/null)" ] || return 1
  expect "its source is shown" grep -q "^$PWD/store $PWD/mnt fuse.fusekeep .*user_id=65534" /proc/mounts || return 1
  $user fusermount3 -u mnt && flock -w "$patience" store-mount true || return 1
  : >log
  $user "$program" -f store mnt 2>log &
  supervisor=$!
  await_mount log || return 1
  keeps "the file is there" [ "$($user cat mnt/one)" = one ] || return 1
  stop_and_end && isnt_mounted "$PWD/mnt"
}

# Copies the contents that a store has beside it, if it has any: copy_contents STORE COPY
copy_contents() {
  [ ! -e "$1-data" ] || cp -p "$1-data" "$2-data"
}

# Copies by sqlite3. Beside a server they are refused, since it holds the store. Without a mount each is a whole store, whose files can
# all be read.
backups() {
  local copy
  start store mnt log || return 1
  start_workers
  await have_made && works_on 100 || return 1
  if sqlite3 store ".backup copy-0" 2>"$work/refusal"; then
    echo "a backup beside a server isn't refused"
    return 1
  fi
  expect "a backup is refused by the lock" grep -q "locked" "$work/refusal" || return 1
  end_workers && compare_tree && unmount_and_end mnt || return 1
  sqlite3 store "UPDATE nodes SET uid = 65534, gid = 65534 WHERE node = 1" || return 1
  sqlite3 store ".backup copy-1" && sqlite3 store "VACUUM INTO 'copy-2'" && copy_contents store copy-1 && copy_contents store copy-2 || return 1
  for copy in copy-1 copy-2; do
    expect "$copy is sound" [ "$(sqlite3 "$copy" "PRAGMA integrity_check")" = ok ] || return 1
    start "$copy" mnt "log-$copy" && ls -lR mnt >/dev/null && find mnt -type f -exec cat {} + >/dev/null || return 1
    expect "its root has the new owner" [ "$(stat -c %u:%g mnt)" = 65534:65534 ] || return 1
    stop_and_end || return 1
  done
}

# The file of a store has some 3,000 blocks before half of them move to its data file. It keeps its size when files are removed.
# `sqlite3 STORE vacuum` makes it as small as its content.
shrinks() {
  local size
  start store mnt log-1 && echo one >mnt/one && head -c 16777216 /dev/urandom >mnt/large && rm mnt/large && stop_and_end || return 1
  start store mnt log-2 && stop_and_end || return 1
  size=$(stat -c %s store)
  expect "it keeps its size" [ "$size" -gt 12000000 ] && sqlite3 store vacuum || return 1
  expect "it is as small as its content" [ "$(stat -c %s store)" -lt 131072 ] || return 1
  expect "it is sound" [ "$(sqlite3 store "PRAGMA integrity_check")" = ok ] || return 1
  start store mnt log-3 && keeps "the file is there" [ "$(cat mnt/one)" = one ] && stop_and_end
}

# Ordinary programs, while servers are killed after more than a second each.
programs() {
  local killer status
  start store mnt log || return 1
  python3 "$here/killer.py" "$supervisor" 1000000 1.1 2>/dev/null &
  killer=$!
  "$here/programs" mnt "$profile"
  status=$?
  kill "$killer"
  unmount_and_end mnt && return "$status"
}

