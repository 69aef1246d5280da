# For the entry of a test folder, tests/NAME/run, which sources this file. It sets
#   test_name  NAME
#   here       the entry's folder
#   tests      the folder of all tests
#   top        the top of the repository
# An entry counts by `compare`, `part` and `skip`, and ends by `finish`. Its leading comment is what --help prints. One that takes the name
# of a case, by `take_case`, then counts that comparison alone.

set -u
here=$(cd "$(dirname "$(readlink -f "$0")")" && pwd)
tests=$(cd "$(dirname "$(readlink -f "${BASH_SOURCE[0]}")")/.." && pwd)
top=$(dirname "$tests")
test_name=$(basename "$here")
passed=0
failed=0
skipped=0
only_case=
export PYTHONDONTWRITEBYTECODE=1 PYTHONSAFEPATH=1 PYTHONPATH=$tests

# Prints the entry's leading comment.
print_help() {
  sed -n '2,/^[^#]/ s/^# \{0,1\}//p' "$0"
}

# Ends with status 2 and the usage, the first line of the leading comment.
refuse_words() {
  print_help | head -n 1 >&2
  exit 2
}

# Prints the help where it is asked for. Other words are refused, unless the entry takes some: take_words yes "$@"
take_words() {
  local takes=$1
  shift
  if [ "${1-}" = --help ]; then
    print_help
    exit 0
  fi
  [ "$takes" = yes ] || [ $# -eq 0 ] || refuse_words
}

# Takes the name of a comparison, or nothing: take_case "$@"
take_case() {
  take_words yes "$@"
  [ $# -le 1 ] && [[ ${1-} != -* ]] || refuse_words
  only_case=${1-}
}

# Prints the counts, and exits by them.
finish() {
  if [ -n "$only_case" ] && [ $((passed + failed)) -eq 0 ]; then
    echo "$test_name: there is no case $only_case"
    failed=1
  fi
  local line="$test_name: $passed passed, $failed failed"
  [ "$skipped" -eq 0 ] || line+=", $skipped skipped"
  echo "$line"
  [ "$failed" -eq 0 ] && [ $((passed + skipped)) -gt 0 ]
  exit
}

# Leaves something out: skip WHAT WHY
skip() {
  skipped=$((skipped + 1))
  echo "$test_name: $1: skipped, $2"
}

# Leaves out all: skip_all WHY
skip_all() {
  skipped=$((skipped + 1))
  echo "$test_name: skipped, $1"
  finish
}

# Skips all where one of these tools is missing.
require_tools() {
  local tool
  for tool; do
    command -v "$tool" >/dev/null || skip_all "there is no $tool"
  done
}

# Sets `program` to the path of the program: that of FUSEKEEP where it is set, else the one that dist/program prints. It is exported as
# FUSEKEEP, too. Where there is none, the whole entry has failed.
require_program() {
  program=$(readlink -f "${FUSEKEEP:-$("$top/dist/program")}")
  if ! [ -x "$program" ]; then
    echo "$test_name: there is no program of these sources (./fusekeep --build builds it)"
    failed=$((failed + 1))
    finish
  fi
  export FUSEKEEP=$program
}

# Whether fusekeep-mount may mount here: can_mount PROGRAM FOLDER. Where the kernel refuses it, as in a container without privileges,
# `refusal` is the line that says so. Other faults are for the test to find.
can_mount() {
  refusal=
  mkdir -p "$2/first-mnt" || return
  if "$1" "$2/first-store" "$2/first-mnt" 2>"$2/first-line"; then
    umount "$2/first-mnt" || umount -l "$2/first-mnt"
  elif grep -qE "Operation not permitted|Permission denied|No such device" "$2/first-line"; then
    refusal=$(head -n 1 "$2/first-line")
    return 1
  fi
}

# Compares what is wanted with what is found: compare WHAT WANTED FOUND. A difference is printed with the place of the comparison and the
# command that runs it alone.
compare() {
  local line file
  [ -z "$only_case" ] || [ "$only_case" = "$1" ] || return 0
  if [ "$2" = "$3" ]; then
    passed=$((passed + 1))
  else
    failed=$((failed + 1))
    read -r line _ file < <(caller 0)
    echo "$test_name: $1: FAILED; < is wanted, > is found"
    diff <(echo "$2") <(echo "$3") | head -n 20
    echo "  at ${file#"$top/"}:$line; alone: tests/$test_name/run $(printf '%q' "$1")"
  fi
}

# Reports an answer that is wrong however busy the machine is: report_wrong WHAT. Such are a request that was lost or done twice, and an
# answered change that is gone after a cut of power. A step of the gate that fails beside the proofs is tried again, but not one that has
# reported this: it has failed. Where the gate runs it, FUSEKEEP_TEST_WRONG names a file for that.
report_wrong() {
  echo "$test_name: WRONG: $1"
  [ -z "${FUSEKEEP_TEST_WRONG-}" ] || echo "$test_name: $1" >>"$FUSEKEEP_TEST_WRONG"
}

# Waits until a file has so many bytes, which a process writes: await_bytes FILE SIZE PROCESS. The limit is long, since a machine may be
# slow. Where they don't come, it says so and fails.
await_bytes() {
  local end=$((SECONDS + 600))
  until [ "$(stat -c %s "$1" 2>/dev/null || echo 0)" -ge "$2" ]; do
    if [ "$SECONDS" -gt "$end" ] || ! kill -0 "$3" 2>/dev/null; then
      echo "$test_name: waited without success for $2 bytes in ${1##*/}, which process $3 should write"
      return 1
    fi
    sleep 0.02
  done
}

# Runs a program that prints its counts in its last line, as an entry does, and adds them: part COMMAND WORD.. The line itself is left
# out where it has the entry's name. Where a case was asked for, it isn't run.
part() {
  local said status before=$failed
  [ -z "$only_case" ] || return 0
  said=$(mktemp) || exit 1
  "$@" | tee "$said" | sed "\$ { /^$test_name: / d }"
  status=${PIPESTATUS[0]}
  if [[ $(tail -n 1 "$said") =~ :\ ([0-9]+)\ passed,\ ([0-9]+)\ failed(,\ ([0-9]+)\ skipped)?$ ]]; then
    passed=$((passed + BASH_REMATCH[1]))
    failed=$((failed + BASH_REMATCH[2]))
    skipped=$((skipped + ${BASH_REMATCH[4]:-0}))
  else
    failed=$((failed + 1))
    echo "$test_name: FAILED, it printed no counts: $*"
  fi
  rm -f "$said"
  if [ "$status" -ne 0 ] && [ "$failed" -eq "$before" ]; then
    failed=$((failed + 1))
    echo "$test_name: FAILED, it ended with status $status: $*"
  fi
}
