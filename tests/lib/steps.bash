# The steps of `test`, each a name and a command. What sources this sets
#   work          a folder of its own
#   tree          the folder that TREE names in a command
#   failed_steps  an array, of the names of the steps that failed
# and, for prove_beside,
#   PROOFS        the steps that prove
#   BESIDE        those that run at the same time
#   passed_alone  an array, of the names of the steps that failed beside the proofs and then passed alone
# The output of a step lies in work/steps, that of a step that was tried again in work/first.

# How many lines show what failed: of a step, and of all.
MOST_LINES_OF_STEP=60
MOST_LINES=200

# Sets `spent` to the seconds of processor time of all commands that have ended.
count_spent() {
  local file=$work/times.$BASHPID
  times >"$file"
  spent=$(tail -n 1 "$file" | tr ms '  ' | awk '{ printf "%d", 60 * ($1 + $3) + $2 + $4 }')
}

# Seconds by the clock and of processor time.
in_minutes() {
  awk -v clock="$1" -v spent="$2" 'BEGIN { printf "%.1f minutes, processor time %.1f minutes", clock / 60, spent / 60 }'
}

# Whether a step has reported a wrong answer, by report_wrong of entry.bash.
is_wrong() {
  [ -s "$work/wrong/$1" ]
}

# Runs a step, with its name, its result and its time around it, and returns whether it passed: run_step NAME COMMAND WORD..
run_step() {
  local name=$1 word=passed began=$SECONDS before
  shift
  echo "== $name${alone-}"
  mkdir -p "$work/steps" "$work/wrong"
  count_spent
  before=$spent
  FUSEKEEP_TEST_WRONG=$work/wrong/$name "$@" 2>&1 | tee "$work/steps/$name"
  if [ "${PIPESTATUS[0]}" -ne 0 ] || is_wrong "$name"; then
    word=FAILED
  fi
  count_spent
  echo "== $name${alone-}: $word, $(in_minutes $((SECONDS - began)) $((spent - before)))"
  [ "$word" = passed ]
}

# Sets `words` to the command of a step, which is written as `NAME: COMMAND WORD..`.
read_words() {
  read -ra words <<<"${1#*: }"
  words=("${words[@]//TREE/$tree}")
}

# Runs steps one after the other, and counts those that failed in `failed_steps`.
run_steps() {
  local step words
  for step; do
    read_words "$step"
    run_step "${step%%:*}" "${words[@]}" || failed_steps+=("${step%%:*}")
  done
}

# Runs the steps of BESIDE on a program, and leaves the names of those that failed in a file.
run_apart() {
  local failed_steps=()
  export FUSEKEEP=$1
  run_steps "${BESIDE[@]}"
  echo "${failed_steps[*]-}" >"$work/failed"
}

# Runs the command of a step again. Of tests/mount, which takes long, only the phases that failed.
run_again() {
  local name=$1 step words=() phase phases status=0
  for step in "${BESIDE[@]}"; do
    [ "${step%%:*}" != "$name" ] || read_words "$step"
  done
  phases=$(sed -n 's/^mount: failed phases: //p' "$work/first/$name" | tail -n 1)
  if [ -z "$phases" ]; then
    "${words[@]}"
    return
  fi
  for phase in $phases; do
    "${words[@]}" --only "$phase" || status=1
  done
  return "$status"
}

# Tries steps again that failed beside the proofs, with nothing beside them: try_alone PROGRAM NAME.. One that has reported a wrong answer
# has failed.
try_alone() {
  local name alone=", alone"
  export FUSEKEEP=$1
  shift
  mkdir -p "$work/first"
  for name; do
    if is_wrong "$name"; then
      failed_steps+=("$name")
      continue
    fi
    mv "$work/steps/$name" "$work/first/$name"
    if run_step "$name" run_again "$name"; then
      passed_alone+=("$name")
    else
      failed_steps+=("$name")
    fi
  done
}

# Runs the steps of PROOFS, and those of BESIDE on a program at the same time. What these print comes when the proofs have ended. Then those
# of them that failed are tried alone.
prove_beside() {
  local pid failed=() kept=${FUSEKEEP-}
  run_apart "$1" >"$work/beside" 2>&1 &
  pid=$!
  run_steps "${PROOFS[@]}"
  wait "$pid" || failed_steps+=(beside)
  cat "$work/beside"
  read -ra failed <"$work/failed" || failed_steps+=(beside)
  try_alone "$1" ${failed[@]+"${failed[@]}"}
  export FUSEKEEP=$kept
}

# The lines of an output that show what failed, with some before and after each; the last lines, where there are none.
lines_that_failed() {
  awk -v most="$MOST_LINES_OF_STEP" '
    { line[NR] = substr($0, 1, 300) }
    /FAILED|NOT REFUSED|NOT PROVED|WRONG|Traceback|allocation [0-9]+ refused:/ {
      for (at = NR - 10; at <= NR + 10; at++) wanted[at] = 1
      found = 1
    }
    END {
      for (at = 1; at <= NR && count < most; at++) {
        if (found ? !(at in wanted) : at <= NR - 40) continue
        if (count && at > last + 1) print "  .."
        print "  " line[at]
        last = at
        count++
      }
    }' "$1"
}

# What shows why steps failed, the last time and before that: print_failures NAME..
print_failures() {
  local name
  for name; do
    if [ -e "$work/steps/$name" ] && [[ " ${passed_alone[*]-} " != *" $name "* ]]; then
      echo "what failed in $name:"
      lines_that_failed "$work/steps/$name"
    fi
    if [ -e "$work/first/$name" ]; then
      echo "what failed in $name beside the proofs:"
      lines_that_failed "$work/first/$name"
    fi
  done | head -n "$MOST_LINES"
}

# What was skipped, and why.
print_skipped() {
  local skipped
  skipped=$(find "$work/steps" "$work/first" -type f -exec cat {} + 2>/dev/null | sed -n 's/: skipped, /: /p' | sort -u | paste -sd '|')
  skipped=${skipped//|/; }
  echo "skipped: ${skipped:-nothing}"
}

# The counts of `rt ci` and of the edits, and the other steps that failed.
print_counts() {
  local passed failed edits_passed edits_failed others
  read -r passed failed < <(sed -n 's/^\([0-9]*\) passed, \([0-9]*\) failed$/\1 \2/p' "$work/steps/proofs" | tail -n 1)
  read -r edits_passed edits_failed < <(sed -n 's/^edits: \([0-9]*\) passed, \([0-9]*\) failed$/\1 \2/p' "$work/steps/edits" | tail -n 1)
  others=$(printf '%s\n' ${failed_steps[@]+"${failed_steps[@]}"} | grep -cvx -e proofs -e edits -e '')
  failed=$((${failed:-1} + ${edits_failed:-1} + others))
  [ "$failed" -gt 0 ] || [ "${#failed_steps[@]}" -eq 0 ] || failed=1
  echo "$((${passed:-0} + ${edits_passed:-0})) passed, $failed failed"
  [ "$failed" -eq 0 ]
}

# The last lines of the gate. CI shows the end of its output alone.
print_end() {
  count_spent
  print_failures ${failed_steps[@]+"${failed_steps[@]}"} ${passed_alone[@]+"${passed_alone[@]}"}
  echo "the whole: $(in_minutes "$SECONDS" "$spent")"
  print_skipped
  [ "${#passed_alone[@]}" -eq 0 ] || echo "failed beside the proofs and passed alone: ${passed_alone[*]}"
  echo "failed steps: ${failed_steps[*]-none}"
  cat "$work/steps/dist"
  print_counts
}
