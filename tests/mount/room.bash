# Phases of tests/mount/run: a store whose disk gets full. Each runs in a folder of its own.

# Writes files of 20,000 bytes, which follow from their number, until a write fails or the file `enough` exists.
write_pieces() {
  local number=0
  while ! [ -e enough ]; do
    piece "$number" >"mnt/$number" || return 1
    number=$((number + 1))
    echo "$number" >written
  done
}

piece() {
  yes "piece $1" | head -c 20000
}

compare_pieces() {
  local number
  for ((number = 0; number < $(cat written); number++)); do
    piece "$number" >wanted && has_bytes_of wanted "mnt/$number" || return 1
  done
}

# Waits until a number, which a writer keeps in a file, has been the same for so many seconds: await_rest FILE SECONDS
await_rest() {
  local end=$((SECONDS + patience)) before=none
  until [ "$(cat "$1")" = "$before" ]; do
    [ "$SECONDS" -le "$end" ] || { echo "waited $patience s for the writer to wait"; return 1; }
    before=$(cat "$1")
    sleep "$2"
  done
  note_progress
}

# Whether it was said that calls wait, and each time then that there is room again.
has_room_again() {
  grep -oE "calls that take room wait|room again" log | xargs | grep -qxE "(calls that take room wait room again ?)+"
}

# While the disk is full calls that take room wait, without end. They go on once there is room, and the reserve is made again. The disk may get full
# again at once. The store has a capacity beyond that of the disk at first.
full_disk() {
  options=size=1G
  mkdir disk && mount -t tmpfs -o size=8m none disk && start disk/store mnt log || return 1
  expect "there is a reserve" await has_reserve 1048576 && expect "its mode" [ "$(stat -c %a disk/store-reserve)" = 600 ] || return 1
  write_pieces &
  local writer=$! written_before
  await has_lines_of 1 "disk has no room left: calls that take room wait until there is some" || return 1
  expect "the reserve was given up" [ ! -e disk/store-reserve ] || return 1
  expect "it was said once" has_lines 1 "disk/store-reserve is given up" || return 1
  await_rest written 15 && written_before=$(cat written) && sleep 15 || return 1
  expect "the writer waits" [ "$(cat written)" = "$written_before" ] && kill -0 "$writer" || return 1
  expect "that was said once" has_lines 1 "disk has no room left: calls that take room wait until there is some" || return 1
  mount -o remount,size=16m disk && sleep 10 && mount -o remount,size=1g disk && await has_room_again || return 1
  touch enough
  wait "$writer"
  expect "no write failed" [ $? -eq 0 ] || return 1
  expect "more was written than had room at first" [ "$(cat written)" -gt "$written_before" ] || return 1
  compare_pieces && unmount_and_end mnt || return 1
  expect "it was said each time" has_room_again || return 1
  expect "the reserve is made again" [ -e disk/store-reserve ] || return 1
  start disk/store mnt log-again && compare_pieces && unmount_and_end mnt && unmount disk
}

# Whether a reserve is there, of so many bytes.
has_reserve() {
  [ "$(stat -c %s disk/store-reserve)" -eq "$1" ]
}

# Fills a disk to its last byte.
fill() {
  cat /dev/zero >"$1" 2>line
  expect "the disk is full" grep -q "No space left" line
}

has_no_handles() {
  "$engine" store "$1" | grep -qx handles=0
}

# The reserve of a store stays when it is unmounted, and the disk becomes full. The store is mounted, files are removed from it, and the reserve
# is made again of the room that there is. Without it the mount is refused.
full_mount() {
  mkdir disk && mount -t tmpfs -o size=8m none disk && start disk/store mnt log || return 1
  await has_reserve 1048576 && piece 1 >mnt/1 && piece 2 >mnt/2 && await has_no_handles disk/store && unmount_and_end mnt && fill disk/filler || return 1
  expect "an unmount leaves the reserve" [ -e disk/store-reserve ] || return 1
  start disk/store mnt log-full && piece 2 | cmp - mnt/2 && rm mnt/1 || return 1
  expect "it names the reserve" grep -q "disk has no room left: .*disk/store-reserve is given up" log-full || return 1
  stop_and_end && rm disk/store-reserve && fill disk/filler-too || return 1
  refuses 3 "fusekeep-mount: .*disk has no room left" "$program" disk/store || return 1
  rm disk/filler && start disk/store mnt log-again && piece 2 | cmp - mnt/2 || return 1
  expect "the file that was removed is gone" [ "$(ls mnt)" = 2 ] || return 1
  unmount_and_end mnt && unmount disk
}

# Makes a file system of this size in a file, and mounts it on `disk`: make_disk SIZE
make_disk() {
  mkdir disk && truncate -s "$1" image && mkfs.ext4 -q -F image && mount -o loop image disk
}

# Writes files of 4 MiB, whose numbers go into `written`, until a write fails.
write_large() {
  local number=0
  while dd if=/dev/urandom of="mnt/$number" bs=1M count=4 status=none; do
    number=$((number + 1))
    echo "$number" >written
  done 2>failure
}

# A mount fills its disk by itself: its store has room for less than the disk, so that a write fails as on any disk that is full, and
# nothing waits. Files are removed, and there is room again.
fills_disk() {
  local size
  for size in 100M 600M; do
    rm -rf image disk && make_disk "$size" && start disk/store mnt "log-$size" && await has_reserve 8388608 || return 1
    write_large
    expect "a write fails for lack of room ($(cat failure))" grep -q "No space left on device" failure || return 1
    expect "it took no reserve" [ "$(stat -c %s disk/store-reserve)" -eq 8388608 ] || return 1
    expect "files are removed" timeout "$patience" rm "mnt/$(cat written)" mnt/0 || return 1
    expect "there is room again" cp mnt/1 mnt/again && has_bytes_of mnt/1 mnt/again || return 1
    expect "no server ended" [ "$(grep -c "ended\|no room" "log-$size")" -eq 0 ] || return 1
    stop_and_end && unmount disk || return 1
  done
}

# A store is said to have more room than its disk. Writes wait, files are removed meanwhile, and then the writes go on, in the room of the
# files that were removed.
overfull() {
  options=size=1G
  make_disk 100M && start disk/store mnt log || return 1
  write_large &
  local writer=$! last
  await grep -q "has no room left" log && await_rest written 2 || return 1
  last=$(cat written)
  expect "files are removed" timeout "$patience" rm mnt/{0..3} || return 1
  await has_written_after "$last" || return 1
  expect "there was room again" has_lines_of 1 "there is room again" || return 1
  expect "the reserve was there again" has_lines_of 1 "disk/store-reserve is made again" || return 1
  kill "$writer"
  wait "$writer"
  expect "a file can be read" cmp mnt/5 <(cat mnt/5) || return 1
  kill -TERM "$supervisor" && await isnt_running "$supervisor" || return 1
  options=
  start disk/store mnt log-again && rm mnt/1* && stop_and_end && unmount disk
}

has_written_after() {
  [ "$(cat written)" -gt "$1" ]
}

# Others fill the disk. Writes wait, and files are removed and read meanwhile; a killed server has its line in the list; a signal ends the
# mount, though a call waits; and it is mounted again so that files can be removed. When there is room again, writes go on.
filled_by_others() {
  options=size=1G
  make_disk 100M && start disk/store mnt log || return 1
  head -c 4000000 /dev/urandom >mnt/large && piece 1 >mnt/1 && piece 2 >mnt/2 && piece 3 >mnt/3 && await [ -e disk/store-reserve ] && fill disk/filler || return 1
  python3 "$here/killer.py" "$supervisor" 1 0.3 || return 1
  await grep -q signal=9 disk/store-mount.log || return 1
  head -c 8000000 /dev/urandom >mnt/waits 2>failure &
  local writer=$!
  await grep -q "has no room left" log && sleep 2 || return 1
  expect "a file is removed" timeout "$patience" rm mnt/1 && expect "a large one is removed" timeout "$patience" rm mnt/large || return 1
  expect "a file is read" cmp mnt/2 <(piece 2) && expect "the writer waits" kill -0 "$writer" || return 1
  kill -TERM "$supervisor" && await isnt_running "$supervisor" && isnt_mounted "$PWD/mnt" || return 1
  wait "$writer"
  expect "the call has ended with an error" [ -s failure ] || return 1
  fill disk/filler-too
  options=
  start disk/store mnt log-again || return 1
  expect "the next mount removes, too" timeout "$patience" rm mnt/2 || return 1
  yes | head -c 16000000 >mnt/4 &
  writer=$!
  await [ -e mnt/4 ] && sleep 1 || return 1
  expect "a file is removed beside one that is made" timeout "$patience" rm mnt/3 && expect "the writer still waits" kill -0 "$writer" || return 1
  rm disk/filler disk/filler-too && await isnt_running "$writer" && yes | head -c 16000000 | cmp - mnt/4 || return 1
  keeps "files that stayed are there" [ "$(ls mnt | xargs)" = "4 waits" ] && unmount_and_end mnt && unmount disk
}

# Gives a file of an unmounted store so many pieces of one block of zeros, with holes between them: add_pieces STORE NAME COUNT
add_pieces() {
  local node
  node=$(sqlite3 "$1" "SELECT child FROM entries WHERE name = CAST('$2' AS BLOB)") && sqlite3 "$1" >/dev/null "PRAGMA journal_mode = memory;
    INSERT INTO pieces SELECT $node, 2 * value, 1, 0, 0 FROM (WITH RECURSIVE n (value) AS (VALUES (0) UNION ALL SELECT value + 1 FROM n
      WHERE value + 1 < $3) SELECT value FROM n);
    UPDATE nodes SET written = $3, size = $3 * 8192 WHERE node = $node;
    UPDATE meta SET v = v + $3 WHERE k = 14;
    PRAGMA journal_mode = wal;"
}

# Two files need more room for their removal than there is: some 2.6 and 1.9 MB for the log. The `rm` of one waits. The other is made shorter by
# steps, and then it is removed. Writes go on meanwhile, beside the call that waits, which is tried again when there is more room.
large_removals() {
  options=size=2G
  mkdir disk && mount -t tmpfs -o size=8m none disk && start disk/store mnt log-before && mkdir mnt/one mnt/other || return 1
  : >mnt/one/large && : >mnt/other/long && stop_and_end || return 1
  add_pieces disk/store large 80000 && add_pieces disk/store long 60000 && start disk/store mnt log || return 1
  fill disk/filler && truncate -s -256K disk/filler || return 1
  rm mnt/one/large &
  local remover=$! length
  await grep -q 'UNLINK .* "large" needs more room than there is: it waits' log || return 1
  expect "calls that take room wait" has_lines 0 "room again" || return 1
  for length in 360M 240M 120M 0; do
    expect "the other is made shorter, to $length" timeout "$patience" truncate -s "$length" mnt/other/long || return 1
  done
  expect "it is removed" timeout "$patience" rm mnt/other/long && expect "a write goes on" write_in "$patience" mnt/other/new || return 1
  expect "the first waits" kill -0 "$remover" && expect "it was tried once" has_lines 1 "needs more room than there is" || return 1
  rm disk/filler && await isnt_running "$remover" || return 1
  expect "it was tried again" has_lines 1 "calls that need more than there was are tried again" || return 1
  expect "both are gone" [ "$(find mnt -type f)" = mnt/other/new ] && unmount_and_end mnt && unmount disk
}

# Writes a file in so many seconds: write_in SECONDS FILE
write_in() {
  timeout "$1" sh -c 'yes | head -c 200000 >"$1"' sh "$2" && [ "$(stat -c %s "$2")" -eq 200000 ]
}

# A disk that has less room than it shows, since no server runs beside the reserve: that isn't written again and again.
false_room() {
  local count began
  make_engine full-engine <<END
if [ "\$4" = --resume ] && [ -e "$PWD/full" ] && [ -e "$PWD/store-reserve" ]; then
  sleep 0.3
  echo "$PWD/store: no room left" >&2
  exit 1
fi
LD_PRELOAD=\$PRELOAD exec "$engine" "\$@"
END
  start store mnt log && await [ -e store-reserve ] && touch full && began=$SECONDS && kill -KILL "$(server_by_parent)" || return 1
  expect "it is made at times" await has_lines_of 3 "store-reserve is made again" || return 1
  count=$(grep -c "store-reserve is made again" log)
  expect "and not more often than each five seconds ($count)" [ $((5 * (count - 1))) -le $((SECONDS - began + 1)) ] || return 1
  rm full && mkdir mnt/a && unmount_and_end mnt
}
