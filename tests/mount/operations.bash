# Phases of tests/mount/run: what an operator asks of a mount. Each runs in a folder of its own.

# A value of the state of a mount, as JSON has it: value_of NAME OPERAND
value_of() {
  ask --status --json "$2" | python3 -c 'import json, sys; print(json.load(sys.stdin)[sys.argv[1]])' "$1"
}

# Whether a value is this one: has_value NAME VALUE OPERAND
has_value() {
  [ "$(value_of "$1" "$3")" = "$2" ]
}

# Whether the one death of a mount is in its list, and the state has the time of that restart.
has_time_of_restart() {
  local listed
  listed=$(sed -n 's/.*restart=//p' store-mount.log) && [ -n "$listed" ] && [ "$(printf %.3f "$(value_of restart_longest store)")" = "$listed" ]
}

# The state of a mount by all paths of its store and by its mountpoint, as words and as JSON.
shows_status() {
  local server operand
  start store mnt log && ln -s "$PWD/store" link && server=$(ask --server store) || return 1
  for operand in store link mnt "$PWD/mnt"; do
    expect "$operand: the server" has_value server "$server" "$operand" || return 1
  done
  expect "from within the mount" [ "$(cd mnt && ask --status . | sed -n 's/^server  *//p')" = "$server" ] || return 1
  expect "no death yet" has_value deaths 0 mnt || return 1
  head -c 8192 /dev/zero >mnt/file && expect "8192 bytes are in use" await has_value used 8192 mnt || return 1
  expect "its capacity" await has_value capacity "$(df -B1 --output=size mnt | tail -n 1 | xargs)" mnt || return 1
  expect "the length of the store" has_value store_bytes "$(stat -c %s store)" store || return 1
  expect "the length of the log" has_value log_bytes "$(stat -c %s store-wal)" store || return 1
  expect "the memory of the server" [ "$(value_of memory mnt)" -gt 1048576 ] || return 1
  expect "the requests" [ "$(value_of requests mnt)" -gt 5 ] && expect "the flushes" [ "$(value_of flushes mnt)" -gt 2 ] || return 1
  expect "the supervisor" has_value supervisor "$supervisor" mnt || return 1
  kill -KILL "$server" && await has_other_server "$server" && await has_value state serving store || return 1
  expect "the second server" has_value servers 2 store && expect "one death" has_value deaths 1 store || return 1
  expect "its signal" has_value last_death_signal 9 store || return 1
  expect "the time of the restart" await has_time_of_restart || return 1
  expect "in words" [ "$(ask --status mnt | sed -n 's/^servers *//p')" = 2 ] || return 1
  expect "among all mounts" [ "$(ask --status | grep -cxE "mountpoint +$PWD/mnt")" -eq 1 ] || return 1
  unmount_and_end mnt || return 1
  expect "no socket is left" [ ! -e store-control ] || return 1
  expect "not mounted" has_no_server "store isn't mounted" "$program" --status store || return 1
  expect "a missing store" has_no_server "missing/store: No such file" "$program" --status missing/store
}

write_look_for_names() {
  cat >names.py <<'END'
import json, os, subprocess, sys
program, store, mountpoint = sys.argv[1], os.fsencode(sys.argv[2]), os.fsencode(sys.argv[3])
here = os.getcwdb()

def answer(*words):
    """What the mount says. On a busy machine it may not answer at once."""
    while (ran := subprocess.run([program, "--status", *words], stdout=subprocess.PIPE)).returncode != 0:
        continue
    return ran.stdout

for operand in ([store], [mountpoint], []):
    found = json.loads(answer("--json", *operand))
    listed = found if isinstance(found, list) else [found]
    own = [each for each in listed if each["mountpoint"] == os.fsdecode(here + b"/" + mountpoint)]
    assert len(own) == 1 and own[0]["store"] == os.fsdecode(here + b"/" + store) and own[0]["state"] == "serving", found
lines = answer(store).split(b"\n")
assert not any(byte < 32 for line in lines for byte in line), lines
END
}

# Paths with bytes of all kinds, and the longest name: the output is JSON, and names them. A store's path is UTF-8, which the engine wants.
shows_any_path() {
  local name
  write_look_for_names
  for name in $'"quoted"\nname\t\\134 \xc3\xa9 \x01\x7f' "$(printf 'n%.0s' {1..240})"; do
    mkdir "$name"$'\xff\xed\xa0\x80' && start "s $name" "$name"$'\xff\xed\xa0\x80' log || return 1
    python3 names.py "$program" "s $name" "$name"$'\xff\xed\xa0\x80' && stop_and_end || return 1
  done
}

# Runs a command, which must end.
in_time() {
  timeout -k 1 "$patience" "$@"
  [ $? -lt 124 ]
}

# No question hangs: with a server that is stopped, a supervisor that is stopped, and one that was killed.
answers_in_time() {
  local server
  start store mnt log && echo one >mnt/one && server=$(ask --server store) && halt "$server" || return 1
  cat mnt/none 2>/dev/null &
  await waits_in_call $! || return 1
  in_time "$program" --status mnt >shown || return 1
  expect "it shows the stopped server" grep -qxE "server +$server" shown || return 1
  expect "it shows no room" [ "$(grep -c "^used" shown)" -eq 0 ] || return 1
  kill -CONT "$server" && halt "$supervisor" || return 1
  in_time "$program" --status mnt >shown 2>line || return 1
  expect "it says that there is no answer" grep -q "process $supervisor, which keeps .*/store mounted, gives no answer" line || return 1
  kill -CONT "$supervisor" && kill_supervisor || return 1
  in_time "$program" --status mnt >shown 2>line || return 1
  expect "it says that the supervisor has ended" grep -q "/store is mounted on $PWD/mnt, but its fusekeep-mount has ended" line || return 1
  umount -l mnt && start store mnt log-again || return 1
  expect "the next mount replaces the socket" has_value supervisor "$supervisor" store && unmount_and_end mnt
}

# Clients that connect and send nothing, or too much, are dropped. The mount goes on meanwhile.
slow_clients() {
  start store mnt log || return 1
  python3 - store-control <<'END' || return 1
import os, socket, sys
clients = [socket.socket(socket.AF_UNIX) for _ in range(8)]
for client in clients:
    client.connect(sys.argv[1])
for client, words in zip(clients, (b"status", b"x" * 100)):
    try:
        client.send(words)
    except (BrokenPipeError, ConnectionResetError):  # it was dropped by then
        pass
os.mkdir("mnt/meanwhile")
for client in clients:
    client.settimeout(600)
    try:
        assert client.recv(1) == b"", "an answer"
    except ConnectionResetError:
        pass
answer = b""
while not answer:
    last = socket.socket(socket.AF_UNIX)
    last.connect(sys.argv[1])
    try:
        last.send(b"nothing\n")
        answer = last.recv(100)
    except (BrokenPipeError, ConnectionResetError):  # it was slow itself
        continue
assert answer == b"error the request isn't known\n", "another answer"
END
  expect "it answers" has_value state serving mnt && unmount_and_end mnt
}

# The owner of a store may ask a mount of root's. Other users may not.
who_may_ask() {
  mkdir folder && start folder/store mnt log && stop_and_end && chown -R 65534:65534 folder && start folder/store mnt log || return 1
  expect "the owner asks" await asks_as_owner || return 1
  stop_and_end && start store mnt log || return 1
  expect "its mode" [ "$(stat -c '%a %u' store-control)" = "600 0" ] || return 1
  expect "another user is refused" has_no_server "can't be asked by this user" $user "$program" --status store || return 1
  expect "the socket itself is refused" refuses_other_user || return 1
  unmount_and_end mnt
}

asks_as_owner() {
  [ "$($user "$program" --server folder/store)" = "$(ask --server folder/store)" ]
}

# A user who gets at the socket is refused by the supervisor.
refuses_other_user() {
  chmod 666 store-control
  has_no_server "gives no answer" $user "$program" --status store
}

# A process of another user that looks like a server, or that listens at the socket's place, isn't believed.
impostors() {
  mkdir open && chmod 777 open && touch open/fuse store-mount && chmod 644 store-mount || return 1
  $user setsid sleep infinity <open/fuse 2<store-mount &
  local sleeper=$!
  await grep -q sleep "/proc/$sleeper/comm" && start store mnt log || return 1
  expect "it isn't the server" [ "$(ask --server store)" != "$sleeper" ] && stop_and_end || return 1
  kill "$sleeper"
  touch open/store
  python3 -c 'import os, socket, time
os.setuid(65534)
listener = socket.socket(socket.AF_UNIX)
listener.bind("open/store-control")
listener.listen()
time.sleep(3600)' &
  await [ -S open/store-control ] || return 1
  expect "it isn't asked" has_no_server "belongs neither to root nor to the owner of the store" "$program" --server open/store || return 1
  touch own
  python3 -c 'import socket
listener = socket.socket(socket.AF_UNIX)
listener.bind("own-control")
listener.listen()
while True:
    client = listener.accept()[0]
    client.recv(100)
    client.sendall(b"state serving\nserver 1, \"supervisor\": 2\nservers 03\nmemory -\nwaiting 4\nrestart_median 0.5\nok\n")
    client.close()' &
  await [ -S own-control ] || return 1
  expect "its words are no JSON ($(values_of_own))" [ "$(values_of_own)" = "serving None None None None 4 0.5" ]
}

values_of_own() {
  ask --status --json own | python3 -c 'import json, sys
found = json.load(sys.stdin)
print(*(found[name] for name in ("state", "server", "supervisor", "servers", "memory", "waiting", "restart_median")))'
}

# The socket comes again where it was removed, with the next server. Where none can be made the mount goes on.
lost_socket() {
  start store mnt log && rm store-control || return 1
  kill -KILL "$(server_by_parent)"
  await has_value servers 2 store && stop_and_end && mkdir store-control && start store mnt log || return 1
  expect "it says so" grep -q "store-control can't be made" log && touch mnt/a && stop_and_end && rmdir store-control
}

# mount(8) changes a mount between ro and rw. It finds its helper in a mount namespace of the test, as in by_fstab.
remounts() {
  mkdir programs room && cp "$program" "${program%/*}/fusekeep-gather.so" programs && cp "$engine" programs/fusekeep || return 1
  cat >in-namespace <<'END'
set -e
trap 'umount -l mnt 2>/dev/null || true' EXIT
mount -t tmpfs none room
mkdir room/upper room/work
mount -t overlay overlay -o lowerdir=/sbin,upperdir=room/upper,workdir=room/work /sbin
ln -s "$PWD/programs/fusekeep-mount" /sbin/mount.fuse.fusekeep
has_options() {
  grep -q " $PWD/mnt $1 - fuse.fusekeep " /proc/self/mountinfo
}
fails() {
  ! "$@" 2>/dev/null
}
mount -t fuse.fusekeep -o noatime,allow_other "$PWD/store" "$PWD/mnt"
mkdir mnt/one
mount -o remount,ro mnt
has_options ro,nosuid,nodev,noatime
fails mkdir mnt/two
mount -o remount,rw mnt
has_options rw,nosuid,nodev,noatime
mkdir mnt/two
programs/fusekeep-mount -o remount,ro,noexec store mnt
has_options ro,nosuid,nodev,noexec,noatime
touch other-store
fails programs/fusekeep-mount -o remount,rw other-store mnt
fails programs/fusekeep-mount -o remount,rw store room
has_options ro,nosuid,nodev,noexec,noatime
umount mnt
END
  unshare --mount env -u FUSEKEEP bash in-namespace
}

# Puts a copy of the engine, or of another program, where the mount finds its engine.
install_program() {
  mkdir -p programs && cp "${1-$engine}" programs/new && mv programs/new programs/fusekeep
}

# Whether the server runs the program that is installed.
runs_installed() {
  [ "$(stat -L -c %i "/proc/$(ask --server store)/exe")" = "$(stat -c %i programs/fusekeep)" ]
}

# The program is replaced while processes work, until five servers have ended in order. The next one is of the new program, no call fails,
# and nothing dies. A server that takes more than five seconds to end is killed.
restarts_under_load() {
  local number=0
  install_program && export FUSEKEEP=$PWD/programs/fusekeep && start store mnt log || return 1
  start_workers
  await have_made || return 1
  while [ "$(grep -c "ended for another one, status 0" log)" -lt 5 ] && [ "$number" -lt 100 ]; do
    number=$((number + 1))
    install_program && expect "an old program runs" not runs_installed || return 1
    request --restart store || return 1
    expect "it says for how long calls waited" grep -qxE "server [0-9]+ serves; calls waited for [0-9]+[.][0-9]{3} s" shown || return 1
    expect "the new program runs" runs_installed || return 1
    expect "the server ended in order, unless it took long: $(cat shown)" ended_in_order || return 1
    works_on 20 || return 1
  done
  end_workers && compare_tree || return 1
  expect "five servers ended in order" [ "$(grep -c "ended for another one, status 0" log)" -eq 5 ] || return 1
  expect "none died" has_value deaths 0 store && expect "one more server" has_value servers $((number + 1)) store || return 1
  unmount_and_end mnt
}

# Whether the last server that ended for another one did so by itself, or calls waited for five seconds or more.
ended_in_order() {
  grep "ended for another one" log | tail -n 1 | grep -q "status 0" || grep -qE "waited for ([5-9]|[1-9][0-9]+)[.]" shown
}

# A program that is missing, one that can't serve, and a server that hangs.
restarts_that_fail() {
  local server
  install_program && export FUSEKEEP=$PWD/programs/fusekeep && start store mnt log && server=$(ask --server store) || return 1
  rm programs/fusekeep
  expect "a missing program" has_no_server "can't be run: No such file" "$program" --restart store || return 1
  expect "the server goes on" [ "$(ask --server store)" = "$server" ] && mkdir mnt/one || return 1
  install_program "$work/scripted" && echo 'echo "store: Version(9)" >&2; exit 3' >programs/fusekeep.bash || return 1
  expect "a program that can't serve" has_no_server "status 3: store: Version(9); the program before it goes on" "$program" --restart store || return 1
  mkdir mnt/two && keeps "both are there" [ "$(ls mnt | xargs)" = "one two" ] && expect "the old program runs" not runs_installed || return 1
  install_program && server=$(ask --server store) && halt "$server" && request --restart store || return 1
  expect "the one that hung was replaced" runs_installed && mkdir mnt/three || return 1
  expect "it wasn't mounted" has_no_server "missing isn't mounted" "$program" --restart missing || return 1
  unmount_and_end mnt
}

# Without a system's log the lines of a mount in the background go into the list beside the store. Here the log is hidden from it.
lines_without_log() {
  cat >in-namespace <<'END'
[ ! -e /dev/log ] || mount --bind /dev/null /dev/log || exit 1
cp "$FUSEKEEP" engine && FUSEKEEP=$PWD/engine "$1" store mnt && chmod 600 engine && ! "$1" --restart store 2>refusal && chmod 700 engine || exit 1
kill -KILL "$("$1" --server store)" && touch mnt/a && exec 9<mnt/a || exit 1
kill "$("$1" --status store | sed -n 's/^supervisor *//p')"
for turn in $(seq 6000); do
  ! grep -q "is in use" store-mount.log || break
  sleep 0.1
done
exec 9<&-
flock -w 600 store-mount true
END
  unshare --mount bash in-namespace "$program" || return 1
  expect "that it was in use" grep -q "Z $PWD/mnt is in use: it is detached" store-mount.log || return 1
  expect "why there is no other server ($(cat refusal))" grep -q "/engine can't be run: Permission denied" refusal || return 1
  expect "the end of the server" grep -qE "^20[0-9-]*T[0-9:.]*Z server [0-9]+ ended, killed by signal 9; the next one runs in " store-mount.log || return 1
  expect "its death" [ "$(grep -cE "Z signal=9 lived=" store-mount.log)" -eq 1 ] || return 1
  expect "the end of the mount" grep -q "the connection of $PWD/mnt has ended" store-mount.log
}

write_unread() {
  cat >unread.py <<'END'
import os, socket, subprocess, sys
F_SETPIPE_SZ = 1031
program, way = sys.argv[1:]

def fill(write):
    count = 0
    try:
        while True:
            write(b"x")
            count += 1
    except BlockingIOError:
        return count

def mount_beside_full_log():
    sockets = [socket.socket(socket.AF_UNIX, socket.SOCK_DGRAM)]
    sockets[0].bind("log-socket")
    subprocess.run(["mount", "--bind", "log-socket", "/dev/log"], check=True)
    count = 1
    while count > 0:
        sockets.append(socket.socket(socket.AF_UNIX, socket.SOCK_DGRAM | socket.SOCK_NONBLOCK))
        sockets[-1].connect("log-socket")
        count = fill(sockets[-1].send)
    subprocess.run([program, "store", "mnt"], check=True)
    return sockets

def mount_with_full_pipe():
    reader, writer = os.pipe()
    os.set_inheritable(writer, True)
    subprocess.Popen([program, "-f", "store", "mnt"], stderr=writer)
    while b"is mounted on" not in os.read(reader, 4096):
        pass
    other = os.open(f"/proc/self/fd/{writer}", os.O_WRONLY | os.O_NONBLOCK)
    fill(lambda byte: os.write(other, byte))
    return reader

unread = mount_beside_full_log() if way == "log" else mount_with_full_pipe()
for turn in range(3):
    while (found := subprocess.run([program, "--server", "store"], stdout=subprocess.PIPE)).returncode != 0:
        continue
    os.kill(int(found.stdout), 9)
    subprocess.run(["timeout", "-s", "KILL", "600", "mkdir", f"mnt/{turn}"], check=True)
END
}

# Nobody reads the lines of a mount: it goes on, and the list has them: goes_on_unread log | pipe
goes_on_unread() {
  local status
  write_unread
  # shellcheck disable=SC2016
  unshare --mount bash -c 'python3 unread.py "$1" "$2"; status=$?; umount -l mnt; exit $status' - "$program" "$1"
  status=$?
  flock -w "$patience" store-mount true
  expect "the mount goes on" [ "$status" -eq 0 ] || return 1
  expect "the lines" [ "$(grep -cE "^20[0-9-]*T[0-9:.]*Z server [0-9]+ ended, killed by signal 9; " store-mount.log)" -eq 3 ]
}

unread_log() {
  goes_on_unread log
}

unread_pipe() {
  goes_on_unread pipe
}

# Where the kernel's counts are mounted a call that waits is shown.
shows_waiting_calls() {
  cat >in-namespace <<'END'
mount -t fusectl none /sys/fs/fuse/connections || exit 1
"$1" store mnt && server=$("$1" --server store) && kill -STOP "$server" || exit 1
mkdir mnt/a &
for turn in $(seq 6000); do
  "$1" --status store >shown
  ! grep -qx "waiting  *1" shown || break
  sleep 0.1
done
kill -CONT "$server" && wait && umount mnt
END
  unshare --mount bash in-namespace "$program" && expect "a call waits" grep -qx "waiting  *1" shown
}

can_count() {
  grep -qw fusectl /proc/filesystems
}
