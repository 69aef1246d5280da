# Phases of tests/mount/run: the data file that an everyday store has beside it, STORE-data. Each runs in a folder of its own.

# Writes a file by requests of 128 KiB, whose bytes lie in the data file: write_contents FILE REQUESTS
write_contents() {
  dd if=/dev/urandom of="$1" bs=131072 count="$2" iflag=fullblock status=none
}

# Whether another process can lock a file as SQLite does.
can_lock() {
  python3 - "$1" <<'END'
import fcntl, os, struct, sys
lock = struct.pack("hhlli4x", fcntl.F_WRLCK, os.SEEK_SET, 1 << 30, 512, 0)
fcntl.fcntl(os.open(sys.argv[1], os.O_RDWR), 37, lock)
END
}

# It is for its owner alone, locked as long as the store is mounted, shown by --status, and stays. Servers write it while they are killed.
contents_private() {
  local number
  write_contents bytes 20 && umask 0 && start store mnt log || return 1
  umask 022
  python3 "$here/killer.py" "$supervisor" 5 &
  for number in {1..20}; do
    dd if=bytes of="mnt/$number" bs=131072 status=none && has_bytes_of bytes "mnt/$number" || return 1
  done
  expect "servers were killed" wait $! || return 1
  expect "it has contents" [ "$(stat -c %s store-data)" -gt "$((20 * $(stat -c %s bytes)))" ] && are_owned 600 0 store store-data || return 1
  expect "its length is shown" await shows_length || return 1
  expect "nobody else can lock it" not can_lock store-data 2>line && unmount_and_end mnt || return 1
  expect "then others can" can_lock store-data || return 1
  mkdir folder && touch folder/store && chown 65534:65534 folder/store && start folder/store mnt log-other && write_contents mnt/a 1 || return 1
  are_owned 600 65534 folder/store-data folder/store-wal && unmount_and_end mnt || return 1
  chmod 604 store-data && start store mnt log-again || return 1
  for number in {1..20}; do
    has_bytes_of bytes "mnt/$number" || return 1
  done
  are_owned 600 0 store-data && unmount_and_end mnt
}

shows_length() {
  has_value data_bytes "$(stat -c %s store-data)" store
}

# A plain store has none. A file of others that has the name stays as it is, and isn't copied.
contents_of_none() {
  local before profile=plain
  start store mnt log && mkdir mnt/a && expect "there is none" [ ! -e store-data ] || return 1
  request --restart store && expect "there is still none" [ ! -e store-data ] && unmount_and_end mnt || return 1
  echo "of others" >store-data && chmod 644 store-data && before=$(stat -c '%i %a %Y' store-data) && start store mnt log-beside || return 1
  can_lock store-data && request --backup copy store && unmount_and_end mnt || return 1
  expect "another file stays as it is" [ "$(stat -c '%i %a %Y' store-data) $(cat store-data)" = "$before of others" ] || return 1
  expect "and isn't copied" [ ! -e copy-data ] && request --backup again store && [ ! -e again-data ] || return 1
  rm store-data && mkdir store-data && start store mnt log-folder && keeps "it has all" [ "$(ls mnt)" = a ] && unmount_and_end mnt
}

# A refused new store goes with its contents. Those of another store stay, and no store is made beside them. An engine that can't have them
# is said why.
contents_refused() {
  refuses 1 "fusekeep-mount: $PWD/mnt: Invalid argument" "$program" -o max_read=99999999999999999999 store || return 1
  start store mnt log && write_contents mnt/a 1 && python3 "$here/killer.py" "$supervisor" 1 && kill_supervisor || return 1
  umount -l mnt && mv store elsewhere || return 1
  refuses 1 "fusekeep-mount: $PWD/store-data is there already, with the contents of another store: .*" "$program" store || return 1
  mv elsewhere store && start store mnt log-again && expect "the log stayed" [ "$(ls mnt)" = a ] && unmount_and_end mnt || return 1
  mv store-data elsewhere && refuses 3 "store: Damaged; $PWD/store-data .*" "$program" store || return 1
  start other mnt log-other && unmount_and_end mnt && cp other-data store-data || return 1
  refuses 3 "store: Damaged; $PWD/store-data has contents of another store" "$program" store || return 1
  rm store-data && ln -s elsewhere store-data && refuses 3 "store: Sql; .*" "$program" store || return 1
  expect "it says why" grep -q "fusekeep-mount: $PWD/store-data isn't given to engines: it must be a regular file" line || return 1
  rm store-data && mv elsewhere store-data && start store mnt log-last && keeps "all is there" [ "$(stat -c %s mnt/a)" = 131072 ] || return 1
  unmount_and_end mnt
  (make_engine full <<<'echo "store: Sql" >&2; echo "$3-data: no room left" >&2; exit 3')
  refuses 3 "fusekeep-mount: $PWD has no room left" env FUSEKEEP=./full "$program" new
}

# It is moved, linked and removed while the store is mounted.
contents_moved() {
  start store mnt log && write_contents mnt/first 3 && mv store-data elsewhere || return 1
  await grep -q "/store-data was moved to $PWD/elsewhere: no server can open it until it is back" log || return 1
  mkdir mnt/before && kill -KILL "$(ask --server store)" && start_waiting after && mv elsewhere store-data || return 1
  expect "the call succeeds" wait "$waiting" || return 1
  ln store-data twice && await grep -q "store-data has another name (a hard link), so no server can open it: remove that name" log || return 1
  rm twice && await has_lines 2 "the files of $PWD/store are in their places again" && rm store-data || return 1
  await grep -q "/store-data was removed while it was mounted: until its server ends, .* has its bytes" log && mkdir mnt/last || return 1
  cp "$(grep -o '/proc/[0-9]*/fd/[0-9]* has its bytes' log | cut -d ' ' -f 1)" copy || return 1
  kill -KILL "$(ask --server store)"
  ended 1 && expect "it says why" grep -q "gave up: .*/store-data was removed" log && umount -l mnt && mv copy store-data || return 1
  start store mnt log-again && keeps "all are there" [ "$(ls mnt | xargs)" = "after before first last" ] && unmount_and_end mnt
}

# Whether a copy has its contents, as of one moment, and mounts, with the file `bytes`: has_contents_of COPY
has_contents_of() {
  are_owned 600 0 "$1" "$1-data" && expect "they begin so" grep -qa "^fusekeep content" "$1-data" || return 1
  expect "nothing else is left" [ "$(find . -maxdepth 1 \( -name "$1*" -o -name ".fusekeep*" \) | wc -l)" -eq 2 ] || return 1
  mkdir "at-$1" && "$program" "$1" "at-$1" && find "at-$1" -type f -exec cat {} + >/dev/null && has_bytes_of bytes "at-$1/bytes" && leave "$1" "at-$1"
}

# Copies of a mounted store and of one that isn't, and over another copy. Contents of others at the copy's name are refused.
contents_copied() {
  local number
  write_contents bytes 20 && start store mnt log && cp bytes mnt || return 1
  start_workers
  await have_made || return 1
  for number in 1 2 3; do
    request --backup "copy-$number" store || return 1
    expect "both are named" grep -qx "$PWD/copy-$number-data has $(stat -c %s "copy-$number-data") bytes" shown || return 1
    has_contents_of "copy-$number" || return 1
  done
  cp copy-1-data alone-data
  expect "contents are there" has_no_server "alone-data is there already, with the contents of another store" "$program" --backup alone store || return 1
  expect "a copy is there" has_no_server "there already: --replace" "$program" --backup copy-1 store || return 1
  end_workers && rm mnt/bytes && compare_tree && cp bytes mnt && rm -f copy-1-* && unmount_and_end mnt || return 1
  request --backup alone --replace store && has_contents_of alone && rm -r at-* alone-m* alone-r* || return 1
  request --backup alone --replace store && has_contents_of alone || return 1
  echo "of others" >beside-data
  expect "another file stays" has_no_server "beside-data: File exists" "$program" --backup beside --replace store || return 1
  expect "as it is" [ "$(cat beside-data)" = "of others" ] && expect "without a copy" [ ! -e beside ] || return 1
  expect "they are the store's" cmp -n 32768 store-data alone-data
}

# A link is put in the place of contents that are being copied: the copy is refused, and nothing is written where the link leads.
contents_swapped() {
  mkdir folder victim && touch victim/empty && start store mnt log || return 1
  head -c 30000000 /dev/urandom >mnt/file || return 1
  swaps_in_copy -data || return 1
  expect "it says why ($(cat line))" grep -q "was replaced by another file" line || return 1
  expect "nothing is written ($(ls victim))" [ "$(ls victim)" = empty ] && [ ! -s victim/empty ] && unmount_and_end mnt
}

# Makes an everyday store of version 2, which has all contents in its tables, with a file of four blocks, which `bytes` has, too.
make_second_version() {
  local letter
  for letter in a b c d; do
    printf '%4096s' "$letter"
  done >bytes
  sqlite3 store <"$tests/stores/version-2.sql" && sqlite3 store "UPDATE meta SET v = 3 WHERE k = 2; UPDATE meta SET v = 4 WHERE k = 4;
    UPDATE meta SET v = 2 WHERE k = 5; INSERT INTO meta VALUES (12, 2), (13, 25600), (14, 4);
    INSERT INTO nodes VALUES (2, $((0100644)), 0, 0, 0, 16384, 0, 0, 0, 0, 0, 0, 1, 0); INSERT INTO entries VALUES (3, 1, CAST('file' AS BLOB), 2);
    INSERT INTO blocks SELECT 2, value, CAST(printf('%4096s', char(97 + value)) AS BLOB) FROM json_each('[0, 1, 2, 3]')"
}

# The first mount migrates it, and it has a data file then.
contents_migrated() {
  make_second_version && start store mnt log && are_owned 600 0 store-data && expect "it has contents" [ -s store-data ] || return 1
  has_bytes_of bytes mnt/file && write_contents mnt/after 3 && expect "its length is shown" await shows_length || return 1
  kill -KILL "$(ask --server store)" && has_bytes_of bytes mnt/file && unmount_and_end mnt || return 1
  expect "its version" [ "$(sqlite3 store "SELECT v FROM meta WHERE k = 1")" = 3 ] && start store mnt log-again || return 1
  has_bytes_of bytes mnt/file && keeps "all are there" [ "$(ls mnt | xargs)" = "after file" ] && unmount_and_end mnt
}

# Writes a hundred times 128 KiB, and prints how many flushes that took.
flushes_of_contents() {
  local before
  before=$(flush_count) && write_contents "mnt/$1" 100 && echo $(($(flush_count) - before))
}

# An ordered mount flushes contents for each commit. The log waits, unless contents are written below the end of the file, where
# the next server finds space that a removed file had.
contents_flushed() {
  local after upon began=$SECONDS
  start store mnt log && after=$(flushes_of_contents after) || return 1
  expect "each is flushed ($after)" [ "$after" -ge 100 ] || return 1
  expect "the log waits ($after)" [ "$after" -lt $((150 + (SECONDS - began) / 5)) ] || return 1
  write_contents mnt/last 1 && rm mnt/after && kill -KILL "$(ask --server store)" && sync mnt/last || return 1
  upon=$(flushes_of_contents upon) || return 1
  expect "the log is flushed, too ($upon)" [ "$upon" -ge 195 ] && unmount_and_end mnt || return 1
  options=durable
  start store mnt log-durable && upon=$(flushes_of_contents durable) && expect "each is flushed ($upon)" [ "$upon" -ge 200 ] && unmount_and_end mnt
}

# Begins a mount whose servers can't flush contents while the file `fails` is there, but for the first one: start_failing_contents VARIABLE=VALUE..
start_failing_contents() {
  touch stays
  make_preloaded "$here/fail.c" fail "FAIL_WHILE=$PWD/fails" FAIL_SUFFIX=-data "$@" && start store mnt log && mkdir mnt/{1..9} || return 1
  write_contents bytes 1 && kill -KILL "$(ask --server store)" && cp bytes mnt/before && touch fails
}

# A flush of contents that fails loses nothing, since what was written isn't listed. If it fails for three servers the call fails, and no
# other one does.
contents_fail() {
  start_failing_contents || return 1
  expect "the call fails" has_error "Input/output error" dd if=bytes of=mnt/last bs=131072 && rm fails || return 1
  expect "three servers ended at it" has_lines 1 "3 servers in a row ended at WRITE .*: it is answered EIO" || return 1
  expect "it says which file" grep -q "/store-data: input/output error" log || return 1
  keeps "all others are there" [ "$(find mnt -mindepth 1 | wc -l)" -eq 11 ] && cp bytes mnt/last && has_bytes_of bytes mnt/before && unmount_and_end mnt || return 1
  export FUSEKEEP=$engine
  start store mnt log-again && keeps "all are there" [ "$(find mnt -mindepth 1 | wc -l)" -eq 11 ] && has_bytes_of bytes mnt/last && has_bytes_of bytes mnt/before && unmount_and_end mnt
}

# Whether a command fails with these words: has_error WORDS COMMAND WORD..
has_error() {
  local words=$1
  shift
  ! "$@" 2>line && grep -q "$words" line
}

# For lack of room the call waits, as it does where the store or its log has none.
contents_full() {
  start_failing_contents FAIL_BY=28 || return 1
  cp bytes mnt/last &
  await has_lines 1 "has no room left: .*-reserve is given up" && sleep 1 && expect "the call waits" kill -0 $! && rm fails && wait $! || return 1
  await grep -q "there is room again" log && keeps "all are there" [ "$(find mnt -mindepth 1 | wc -l)" -eq 11 ] || return 1
  has_bytes_of bytes mnt/last && has_bytes_of bytes mnt/before && unmount_and_end mnt
}
