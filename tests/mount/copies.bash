# Phases of tests/mount/run: backups of a mount. Each runs in a folder of its own.

# A process that counts in a file of the mount, and then in another one; the files `begun` and `counted` beside have the last numbers.
count_in_mount() {
  python3 - <<'END' &
import os
ends = [os.open(f"mnt/{name}", os.O_RDWR | os.O_CREAT, 0o600) for name in ("first", "second")]
beside = [os.open(name, os.O_RDWR | os.O_CREAT, 0o600) for name in ("begun", "counted")]
number = 0
while not os.path.exists("enough"):
    number += 1
    text = b"%012d" % number
    os.pwrite(beside[0], text, 0)
    for end in ends:
        os.pwrite(end, text, 0)
    os.pwrite(beside[1], text, 0)
END
  counter=$!
  await [ -s counted ]
}

number_in() {
  expr "$(cat "$1")" + 0
}

# The copy is sound, is one file of mode 600, but for its contents, mounts, and holds a state between: is_backup COPY LEAST MOST
is_backup() {
  local first second
  expect "it is one file" [ "$(find . -maxdepth 1 \( -name "$1*" -o -name ".fusekeep*" \) ! -name "$1-data" | wc -l)" -eq 1 ] || return 1
  expect "its mode" [ "$(stat -c %a "$1")" = 600 ] || return 1
  if command -v sqlite3 >/dev/null; then
    expect "it is sound" [ "$(sqlite3 "$1" "PRAGMA integrity_check")" = ok ] || return 1
  fi
  mkdir "at-$1" && "$program" "$1" "at-$1" && first=$(number_in "at-$1/first") && second=$(number_in "at-$1/second") || return 1
  expect "as of one commit: $2 <= $second <= $first <= $3" [ "$2" -le "$second" ] || return 1
  expect "$second <= $first" [ "$second" -le "$first" ] && expect "$first <= $second + 1" [ "$first" -le $((second + 1)) ] || return 1
  expect "$first <= $3" [ "$first" -le "$3" ] && find "at-$1" -type f -exec cat {} + >/dev/null && leave "$1" "at-$1"
}

# Copies of a mounted store while processes work, and while its servers are killed; then one without a mount.
backups_under_load() {
  local number least killer
  start store mnt log || return 1
  start_workers
  await have_made && count_in_mount || return 1
  for number in 1 2 3 4 5 6 7 8; do
    least=$(number_in counted)
    [ "$number" -ne 6 ] || { python3 "$here/killer.py" "$supervisor" 1000000 0.3 2>/dev/null & killer=$!; }
    request --backup "copy-$number" store || return 1
    expect "it says for how long calls waited" grep -qE "^calls waited for [0-9]+[.][0-9]{3} s; copied by (bytes|reference)$" shown || return 1
    is_backup "copy-$number" "$least" "$(number_in begun)" || return 1
  done
  kill "$killer"
  expect "the first five killed no server" [ "$(grep -c "killed by signal" <(sed '/killed by signal 9/,$d' log))" -eq 0 ] || return 1
  touch enough && wait "$counter" && end_workers && unmount_and_end mnt || return 1
  request --backup copy-9 store && is_backup copy-9 "$(number_in counted)" "$(number_in begun)" || return 1
  expect "it names the copy" grep -qx "$PWD/copy-9 has [0-9]* bytes" shown || return 1
  start store mnt log-again && rm mnt/first mnt/second && compare_tree && unmount_and_end mnt
}

# What a backup doesn't do: replace a file unless asked, copy over the store or a mounted one, take another one's log; and a client that
# leaves doesn't hold the mount.
backups_refused() {
  start store mnt log && touch there log-alone-wal && mkdir folder other && "$program" other-store other || return 1
  for name in there:"there already: --replace" folder:"there already" store:"the store itself" log-alone:"log of another store" \
    missing/copy:"No such file" mnt/copy:"the copy would lie on the mount itself"; do
    expect "$name" has_no_server "${name#*:}" timeout -s KILL "$patience" "$program" --backup "${name%%:*}" store || return 1
  done
  expect "nothing is left on the mount" [ -z "$(ls -A mnt)" ] || return 1
  expect "over a mounted one" has_no_server "other-store is mounted" "$program" --backup other-store --replace store || return 1
  expect "of none" has_no_server "missing" "$program" --backup copy missing || return 1
  touch there-wal && request --backup there --replace store && request --backup log-alone --replace store || return 1
  expect "the old log is gone" [ ! -e there-wal ] && keeps "both are there" [ -s there ] && expect "both" [ -s log-alone ] || return 1
  expect "nothing else is left" [ -z "$(find . -xdev -name '.fusekeep*')" ] || return 1
  python3 - store-control <<'END' || return 1
import os, socket, sys
for turn in range(20):
    client = socket.socket(socket.AF_UNIX)
    client.connect(sys.argv[1])
    files = [os.open(f"file-{turn}-{number}", os.O_RDWR | os.O_CREAT) for number in range(2)]
    try:
        socket.send_fds(client, [b"backup\n"], files)
    except (BrokenPipeError, ConnectionResetError):  # it was dropped, since it was slow
        pass
    client.close()
    os.mkdir(f"mnt/{turn}")
END
  expect "it is served by its first server" has_value servers 1 store && umount other && unmount_and_end mnt
}

# Puts a link in the place of a copy's file, whose name ends so, before the stopped supervisor has copied anything: that copy is refused:
# swaps_in_copy SUFFIX PREFIX..
swaps_in_copy() {
  local suffix=$1 backup name
  halt "$supervisor" || return 1
  "$program" --backup folder/copy store 2>line &
  backup=$!
  await compgen -G "folder/.fusekeep-backup-*-data" || return 1
  name=$(basename folder/.fusekeep-backup-*-data -data)$suffix
  "${@:2}" mv "folder/$name" folder/stolen && "${@:2}" ln -s ../victim/empty "folder/$name" && kill -CONT "$supervisor" || return 1
  expect "the link is refused" not wait "$backup"
}

# The owner of the folder puts a link in the place of a copy that is being made: nothing is written where it leads.
backups_swapped() {
  mkdir folder victim && touch victim/empty && chown 65534 folder && start store mnt log && head -c 30000000 /dev/urandom >mnt/file || return 1
  swaps_in_copy "" $user || return 1
  expect "it says why" grep -qE "is a symbolic link|was replaced by another file|Not a directory" line || return 1
  expect "nothing is written ($(ls victim))" [ "$(ls victim)" = empty ] && [ ! -s victim/empty ] && unmount_and_end mnt
}

# Where the disk has references to blocks, a copy takes none: its bytes aren't written again.
backups_by_reference() {
  truncate -s 400M image && mkfs.xfs -q image && mkdir disk && mount -o loop image disk && start disk/store mnt log || return 1
  head -c 20000000 /dev/urandom >mnt/file && request --backup disk/copy disk/store || return 1
  expect "by reference" grep -q "copied by reference" shown || return 1
  mkdir again && "$program" disk/copy again && cmp mnt/file again/file && leave disk/copy again && unmount_and_end mnt && unmount disk
}

can_refer() {
  command -v mkfs.xfs >/dev/null && [ -e /dev/loop-control ]
}
