# Phases of tests/mount/run: which program is run as the engine, and what it may do. Each runs in a folder of its own.

# Beside an installed fusekeep-mount only its own folder has the engine. It must be a program, and fusekeep-mount must have the rights of
# its caller.
engine_by_name() {
  mkdir -p tree/mount/out tree/dist/x86_64-linux programs suid && cp "$program" "${program%/*}/fusekeep-gather.so" tree/mount/out && cp "$engine" programs/fusekeep || return 1
  (make_engine tree/dist/x86_64-linux/fusekeep <<<"touch $PWD/ran; exit 3")
  env -u FUSEKEEP PATH="$PWD/programs" tree/mount/out/fusekeep-mount store mnt && leave store mnt && expect "its socket is gone" [ ! -e store-control ] || return 1
  expect "the program of the tree isn't run" [ ! -e ran ] || return 1
  printf '#!/bin/sh\ntouch ran\n' >script && chmod 755 script
  refuses 1 "fusekeep-mount: ./script: Exec format error" env FUSEKEEP=./script "$program" other-store || return 1
  expect "the script isn't run" [ ! -e ran ] || return 1
  mount -t tmpfs -o suid none suid && cp "$program" suid && chown 65534 suid/fusekeep-mount && chmod 4755 suid/fusekeep-mount || return 1
  refuses 1 "fusekeep-mount: this program can't run with .*" suid/fusekeep-mount other-store || return 1
  umount suid
}

# The engine is opened once: a file that is put in its place serves nothing.
replaced_engine() {
  cp "$engine" own && FUSEKEEP=$PWD/own start store mnt log && echo one >mnt/one || return 1
  make_engine other <<<"touch $PWD/ran; exit 3"
  cp other.bash own.bash && mv other own && python3 "$here/killer.py" "$supervisor" 2 0.3 || return 1
  keeps "the file is read by a later server" [ "$(cat mnt/one)" = one ] || return 1
  expect "the other program isn't run" [ ! -e ran ] || return 1
  unmount_and_end mnt
}

# What /proc shows of a process, by the names of its fields.
fields_of() {
  local field
  for field; do
    sed -n "s/^$field:[[:space:]]*//p" "/proc/$process/status" | xargs
  done | paste -sd ' '
}

# Whether this test has CAP_SYS_RESOURCE.
may_set_limits() {
  local process=self
  [ $((0x$(fields_of CapEff) >> 24 & 1)) -eq 1 ]
}

# Whether a server has these ids, in a process that can do nothing else: is_confined USER GROUP
is_confined() {
  local process none=0000000000000000 flags
  process=$(ask --server store) || return 1
  expect "its ids are $1:$2 ($(fields_of Uid Gid))" [ "$(fields_of Uid Gid)" = "$1 $1 $1 $1 $2 $2 $2 $2" ] || return 1
  expect "it has no groups" [ -z "$(fields_of Groups)" ] || return 1
  expect "it has no capabilities" [ "$(fields_of CapInh CapPrm CapEff CapBnd CapAmb)" = "$none $none $none $none $none" ] || return 1
  expect "it has a filter and gains nothing" [ "$(fields_of NoNewPrivs Seccomp)" = "1 2" ] || return 1
  expect "it leaves no core" grep -qE "^Max core file size +0 +0 " "/proc/$process/limits" || return 1
  expect "it isn't dumpable" [ "$(stat -c %u:%g "/proc/$process/status")" = 0:0 ] || return 1
  flags=$(cut -d ' ' -f 9 "/proc/$process/stat")
  ! may_set_limits || expect "it is known to write for a disk" [ $((flags & 0x180000)) -eq $((0x180000)) ] || return 1
  expect "its environment has nothing of the caller's" [ -z "$(tr '\0' '\n' <"/proc/$process/environ" | grep -vE '^(LD_PRELOAD|FUSEKEEP_[A-Z]+)=')" ]
}

# Servers are processes of the store's owner, whoever owns its folder, and so is the log that is made beside the store.
owners() {
  local owner folder
  for owner in 0 65534; do
    for folder in 0 65534; do
      mkdir "$owner-$folder" && cd "$owner-$folder" && mkdir mnt && touch store && chown "$owner:$owner" store && chown "$folder" . || return 1
      start store mnt log && is_confined "$owner" "$owner" || return 1
      echo one >mnt/one && python3 "$here/killer.py" "$supervisor" 2 0.3 && echo two >mnt/two || return 1
      keeps "both files are there" [ "$(cat mnt/one mnt/two | xargs)" = "one two" ] && is_confined "$owner" "$owner" || return 1
      expect "the log has that owner, too" [ "$(stat -c %u:%g store-wal)" = "$owner:$owner" ] || return 1
      unmount_and_end mnt && cd .. || return 1
    done
  done
  touch store && chmod 400 store
  refuses 1 "fusekeep-mount: its owner can't read and write store, .*" "$program" store || return 1
  mkdir closed && touch closed/store && chown 65534 closed/store && chmod 700 closed || return 1
  "$program" closed/store mnt 2>line
  expect "it isn't mounted" [ $? -ne 0 ] || return 1
  expect "it says why" grep -qx "fusekeep-mount: $PWD/closed can't be read by the owner of $PWD/closed/store (user 65534), as whom its servers run" line
}

# An engine opens the store, its log and its contents, and no other file. Other calls of the system than its own are refused.
confined() {
  "${CC:-cc}" -std=c11 -O2 -Wall -Wextra -Wpedantic -Werror -o prober "$here/prober.c" && touch store-other || return 1
  refuses 3 "store=0 log=0 data=0 other=13 new=13 passwd=13 self=13 execve=38 fork=38 socket=38 kill=38 unlink=38 prctl=38 suid=1 readable=1 owner=1 signal=1 mode=0 code=1" \
    env FUSEKEEP=./prober "$program" store
}

# A kernel without Landlock: a line says so, and the mount is served.
no_landlock() {
  local program=$PWD/traced
  printf '#!/bin/sh\nexec strace -D -f -qq -o /dev/null -e trace=%s -e inject=%s:error=ENOSYS "%s" "$@"\n' \
    landlock_create_ruleset landlock_create_ruleset "$top/mount/out/fusekeep-mount" >traced && chmod 755 traced
  start store mnt log && mkdir mnt/a || return 1
  expect "it says so" has_lines 1 "this kernel has no Landlock: the servers of $PWD/store may open all files that its owner may" || return 1
  unmount_and_end mnt
}

# An engine that begins no mount until the file `may-begin` is there.
write_waiting_engine() {
  make_engine waiting-engine <<END
touch "$PWD/waits"
[ "\$4" = --resume ] || until [ -e "$PWD/may-begin" ]; do sleep 0.1; done
LD_PRELOAD=\$PRELOAD exec "$engine" "\$@"
END
}

# The owner of the parent gives the mountpoint's name to a link while the mount is begun: the directory that had the name is mounted on.
renamed_mountpoint() {
  write_waiting_engine
  mkdir parent parent/mnt victim && touch victim/file || return 1
  "$program" -f store parent/mnt 2>log &
  supervisor=$!
  await [ -e waits ] && mv parent/mnt parent/other && ln -s "$PWD/victim" parent/mnt && touch may-begin || return 1
  await_mount log && expect "its place" grep -q "is mounted on $PWD/parent/other" log || return 1
  expect "nothing is mounted where the link leads" isnt_mounted "$PWD/victim" || return 1
  stop_and_end && isnt_mounted "$PWD/parent/other"
}

# Its parent is renamed, and another file system is mounted under the old path: the mount is unmounted, and the other one stays.
renamed_parent() {
  mkdir parent parent/mnt && start store parent/mnt log && mv parent elsewhere && mkdir -p parent/mnt || return 1
  mount -t tmpfs other parent/mnt && stop_and_end || return 1
  expect "the store isn't mounted any more" isnt_mounted "$PWD/elsewhere/mnt" || return 1
  expect "the other one stays" grep -q "^other $PWD/parent/mnt tmpfs " /proc/mounts || return 1
  umount parent/mnt
}

# A directory with entries is mounted on where that is allowed.
nonempty() {
  touch mnt/hidden
  refuses 1 "fusekeep-mount: mnt isn't empty: its entries would be hidden .-o nonempty allows that." "$program" store || return 1
  options=nonempty
  start store mnt log && expect "the entry is hidden" [ -z "$(ls mnt)" ] && unmount_and_end mnt || return 1
  expect "the entry is there again" [ "$(ls mnt)" = hidden ]
}

# Both programs of the mount are compiled so that an error of theirs is hard to use.
hardened() {
  local file
  for file in "$program" "${program%/*}/fusekeep-gather.so"; do
    readelf -hldsW "$file" >facts || return 1
    expect "$file can lie anywhere" grep -qE "^ *Type: *DYN" facts || return 1
    expect "what is relocated in $file can't be written" grep -q GNU_RELRO facts && expect "all of it" grep -q BIND_NOW facts || return 1
    expect "the stack of $file is no code" grep -qE "GNU_STACK .* RW +0x" facts || return 1
    expect "frames of $file are checked" grep -q __stack_chk_fail facts || return 1
    expect "copies of $file are checked" grep -qE "__v?snprintf_chk" facts || return 1
  done
}

# A program that runs with its file's owner is refused, since its caller names the engine. The folder must honour the bit of a file, which
# one in memory may not.
set_user_id() {
  local folder status
  folder=$(mktemp -d -p /var/tmp) && cp "$program" "$folder/mount" && chown 65534 "$folder/mount" && chmod 4755 "$folder/mount" || return 1
  "$folder/mount" store mnt 2>line
  status=$?
  rm -r "$folder"
  expect "it ends with status 1 (it ended with $status)" [ "$status" -eq 1 ] || return 1
  expect "it says why: $(cat line)" grep -q "can't run with its file's owner or capabilities" line || return 1
  expect "nothing is made" [ ! -e store ] && isnt_mounted "$PWD/mnt"
}
