#!/usr/bin/env bash
# Refuses each allocation of a run of a built program in turn, up to the first run in which none is refused, and counts how
# the runs ended. What is written has to be all of the right output, or a front of its lines, then perhaps a fault line,
# with one line on standard error and the status of that fault: want of memory, or a store that failed for it. A program
# that reads its words before anything else may also end as with wrong words, status 2 and nothing written.
#
# Wants gcc and the built program (make desk, make order_check, or `rt run` in crates/bench_lists for the keeper of lists). Usage:
# bench/attacks/allocations.sh [PROGRAM [INPUT [STEP]]], by default build/desk, session.jsonl here, and each allocation; with a STEP only
# each so many-th is refused.
set -eu
cd "$(dirname "$0")/../.."
program=$(realpath "${1:-build/desk}")
input=$(realpath "${2:-bench/attacks/session.jsonl}")
step=${3:-1}
work=$(mktemp -d)
trap 'rm -rf "$work"' EXIT
gcc -shared -fPIC -O1 -o "$work/refuse.so" bench/faults/refuse.c -ldl
status=0
"$program" < "$input" > "$work/whole" || status=$?
right=$status

# Whether the lines that were written, but for a last one that tells a fault, are a front of the right ones.
is_front() {
  sed '$ { /^{"fault":[12]}$/d }' "$work/out" > "$work/front"
  cmp -s "$work/front" <(head -c "$(stat -c %s "$work/front")" "$work/whole")
}

for ((n = 1; n <= 1000000; n += step)); do
  status=0
  rm -f "$work/refused"
  REFUSE=$n REFUSED="$work/refused" LD_PRELOAD="$work/refuse.so" "$program" < "$input" > "$work/out" 2> "$work/err" || status=$?
  told=$(cat "$work/err")
  if [ "$status" = "$right" ] && cmp -s "$work/out" "$work/whole"; then
    end="all was done"
  elif [ "$status" = 4 ] && [ "$told" = 'fault: memory' ] && is_front; then
    end="want of memory"
  elif [ "$status" = 3 ] && [ "$told" = 'fault: store' ] && is_front; then
    end="the store failed"
  elif [ "$status" = 2 ] && [ ! -s "$work/out" ]; then
    end="no words"
  else
    echo "allocation $n: wrong end, status $status"
    cat "$work/out" "$work/err"
    exit 1
  fi
  if [ ! -e "$work/refused" ]; then
    [ "$end" = "all was done" ]
    echo "of $((n - 1)) allocations${3:+, each $step-th refused}:"
    break
  fi
  echo "$end" >> "$work/ends"
done
sort "$work/ends" | uniq -c
