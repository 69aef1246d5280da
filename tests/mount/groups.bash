# Phases of tests/mount/run: the library that servers preload, and servers that flush nothing. Each runs in a folder of its own.

# Stops the server, and lets sixteen calls wait at its device, each in a directory of its own, since one directory has one MKDIR or RMDIR
# at a time: call_sixteen PROGRAM
call_sixteen() {
  local number
  callers=()
  server=$(ask --server store) && halt "$server" || return 1
  for number in {1..16}; do
    "$1" "mnt/$number/made" &
    callers+=($!)
  done
  await all_wait
}

start_callers() {
  mkdir mnt/{1..16} && call_sixteen mkdir
}

all_wait() {
  local caller
  for caller in "${callers[@]}"; do
    waits_in_call "$caller" || return 1
  done
}

# All calls have succeeded, and each has made its directory.
end_callers() {
  local caller number
  for caller in "${callers[@]}"; do
    await isnt_running "$caller" || return 1
    expect "no call fails" wait "$caller" || return 1
  done
  for number in {1..16}; do
    keeps "the directory $number is there" [ "$(ls "mnt/$number")" = made ] || return 1
  done
}

# Lets the stopped server go on under strace: trace_server FILE WORD..
trace_server() {
  local file=$1
  shift
  strace -qq -o "$file" -p "$server" "$@" &
  tracer=$!
  await is_traced "$server" && kill -CONT "$server"
}

# A server dies when it has read some messages of those that wait, and answered none. They come again. The next server finds none that
# wait, and its reads wait.
gathered() {
  start store mnt log && start_callers || return 1
  trace_server calls -P /dev/fuse -e trace=read,write -e inject=read:signal=KILL:when=6 || return 1
  end_callers || return 1
  expect "it had read some and answered none ($(xargs -d '\n' <calls))" \
    [ "$(grep -c '^read(0, .* = [1-9]' calls) $(grep -c '^write(1' calls)" = "5 0" ] || return 1
  expect "it was killed" [ "$(kills_in log)" -eq 1 ] || return 1
  server=$(ask --server store) && await waits_in_reads "$server" && unmount_and_end mnt
}

# Whether the reads of a server wait, which is so where the device has no O_NONBLOCK.
waits_in_reads() {
  [ $((0$(sed -n 's/^flags:[[:space:]]*//p' "/proc/$1/fdinfo/0") & 04000)) -eq 0 ]
}

# The requests that wait together are committed together, where each commit has a flush.
committed_together() {
  options=durable
  start store mnt log && mkdir mnt/{1..16} && removes_together && unmount_and_end mnt
}

# Whether sixteen RMDIRs that wait together have their answers by four flushes at most. The kernel knows the attributes of all directories,
# which it would ask for first. If it does all the same, the RMDIRs don't wait together, and others are tried.
removes_together() {
  local answers flushes try caller
  for try in {1..20}; do
    mkdir mnt/{1..16}/made && stat mnt/{1..16} mnt/{1..16}/made >listed && call_sixteen rmdir && trace_server calls -e trace=write,fsync,fdatasync || return 1
    for caller in "${callers[@]}"; do
      expect "no call fails" wait "$caller" || return 1
    done
    kill "$tracer"
    wait "$tracer"
    answers=$(grep -c '^write(1' calls) flushes=$(grep -cE '^(fsync|fdatasync)' calls)
    [ "$answers" -ne 16 ] || break
  done
  expect "sixteen answers ($answers) by four flushes at most ($flushes)" [ "$answers" -eq 16 ] && [ "$flushes" -le 4 ]
}

# Whether the log has a line for the request, and one for its answer: is_shown OPCODE ENDING ANSWER
is_shown() {
  local line id time='^[0-9]{2}:[0-9]{2}:[0-9]{2}[.][0-9]{6}Z'
  line=$(grep -E "$time $1 id=[0-9]+ resend=[01] node=[0-9]+ len=[0-9]+ pid=[0-9]+$2\$" log | tail -n 1)
  id=$(grep -o 'id=[0-9]*' <<<"$line" | head -n 1)
  expect "there is a line for $1$2" [ -n "$id" ] || return 1
  expect "its answer has $3" grep -qE "$time $1 $id resend=[01] $3\$" log
}

# With -d there is a line for each request and each answer, whether requests are gathered or not.
shows() {
  local switch=-d
  shows_all && options=nogroups && shows_all
}

shows_all() {
  local ok='errno=0 len=[0-9]+ us=[0-9]+'
  rm -rf store* && start store mnt log && mkdir mnt/made && touch mnt/made/$'a\nb"c' && ln -s there mnt/link || return 1
  ! rmdir mnt/made 2>line && kill -KILL "$(ask --server store)" && ls mnt >/dev/null && unmount_and_end mnt || return 1
  is_shown INIT "" "$ok" && is_shown MKDIR ' "made"' "$ok" && is_shown CREATE ' "a\\012b\\042c"' "$ok" || return 1
  is_shown SYMLINK ' "link" "there"' "$ok" && is_shown RMDIR ' "made"' 'errno=39 len=16 us=[0-9]+ Directory not empty' || return 1
  expect "the notice of the second server is shown" [ "$(grep -cE 'Z notice=7 RESEND$' log) $(grep -c 'Z notice=' log)" = "1 1" ] || return 1
  expect "each answer follows a request of its id and opcode" has_pairs
}

has_pairs() {
  awk '/ errno=/ { answers++; if (!asked[$2 " " $3]) exit 1 } / node=/ { asked[$2 " " $3] = 1 } END { exit !(answers > 12) }' log
}

# A mount goes on where nobody reads its lines.
shows_to_nobody() {
  "$program" -d store mnt 2> >(head -n 3 >/dev/null) &
  supervisor=$!
  await is_mounted "$PWD/mnt" && mkdir mnt/{1..50} || return 1
  expect "the directories are there" [ "$(ls mnt | wc -l)" -eq 50 ] || return 1
  kill -TERM "$supervisor" && ended 0
}

# Whether a server has the library.
has_library() {
  grep -q fusekeep-gather.so "/proc/$1/maps"
}

# Compiles a program that is linked statically, so that it preloads nothing: cc_static NAME TEXT
cc_static() {
  "${CC:-cc}" -static -O1 -x c -o "$1" - <<<"$2"
}

# Without the library nothing is mounted. With it, the library may go while the store is mounted. An engine that doesn't load it is refused.
no_library() {
  local program=$program
  mkdir bin && cp "$program" bin && program=$PWD/bin/fusekeep-mount || return 1
  for options in groups nogroups; do
    refuses 1 "fusekeep-mount: fusekeep-gather.so is missing: .*" "$program" -o "$options" store || return 1
  done
  options=
  mkdir -p lib/fusekeep && cp "$top/mount/out/fusekeep-gather.so" lib/fusekeep || return 1
  cc_static deaf 'int main(void) { return 0; }' && refuses 1 "fusekeep-mount: $PWD/deaf doesn't load fusekeep-gather.so: .*" \
    env FUSEKEEP="$PWD/deaf" "$program" store || return 1
  start store mnt log && expect "it has the library" has_library "$(ask --server store)" || return 1
  rm lib/fusekeep/fusekeep-gather.so && kill -KILL "$(ask --server store)" && mkdir mnt/last || return 1
  expect "the next one has it, too" has_library "$(ask --server store)" || return 1
  unmount_and_end mnt
}

# In a server of a volatile mount neither fsync(2) nor fdatasync(2) reaches the kernel, which refuses both for a pipe. The engine that
# begins a mount flushes.
flushes() {
  make_engine flushing-engine <<END
python3 - "\$@" <<'CALLS'
import os, sys
for flush in os.fsync, os.fdatasync:
    try:
        flush(os.pipe()[1])
        word = "ignored"
    except OSError:
        word = "made"
    with open("$PWD/flushes", "a") as file:
        print("serves" if "--resume" in sys.argv else "begins", word, file=file)
CALLS
LD_PRELOAD=\$PRELOAD exec "$engine" "\$@"
END
  flushes_as "begins made begins made serves made serves made" && options=volatile || return 1
  flushes_as "begins made begins made serves ignored serves ignored"
}

flushes_as() {
  rm -f flushes
  start store mnt log && mkdir "mnt/made$options" && unmount_and_end mnt || return 1
  expect "$1 (it has $(xargs <flushes))" [ "$(xargs <flushes)" = "$1" ]
}
