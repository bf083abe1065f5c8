#!/usr/bin/env bash
# The seconds and the peak memory of words of the built program over a file with so many movements: of verify, which opens it, tests all
# its tables as it adopts them and closes it, and how many times those of the file before; of a run without lines that raises it from the
# first schema, to which Python's sqlite3 has taken it back; of verify once the file has as many receipts; and of one question to a file
# that was empty. Of verify the least of five runs is told.
# Python's sqlite3 writes the movements into a file that the desk made. Wants the built program (make desk), or another one as DESK.
# Usage: [DESK=PROGRAM] bench/opening/verify.sh [N ..], by default 1000 10000 100000.
set -eu
cd "$(dirname "$0")/../.."
desk=$(realpath "${DESK:-build/desk}")
work=$(mktemp -d)
trap 'rm -rf "$work"' EXIT
timed() { # words.., with lines of standard input
  /usr/bin/time -f '%e %M' -o "$work/time" "$@" > "$work/out"
  read -r seconds memory < "$work/time"
}
least() { # words..
  best=
  for _ in 1 2 3 4 5; do
    timed "$@" < /dev/null
    best=$(awk -v s="$seconds" -v b="${best:-$seconds}" 'BEGIN { print s < b ? s : b }')
  done
  seconds=$best
}
timed "$desk" run "$work/empty.db" <<< '{"ask":"desk"}'
echo "an empty file, $(cat "$work/out"): $seconds s, $memory kB at most"
goods='{"at":1,"by":"","do":"add_class","class":"RAW","name":""}
{"at":1,"by":"","do":"add_definition","def":"SUGAR","class":"RAW","name":"","unit":"g"}'
# each lot is received once and scrapped nine times
fill="
import sqlite3, sys
store, lots = sqlite3.connect(sys.argv[1]), range(int(sys.argv[2]) // 10)
movements = ((3 + 10 * lot + it, 1, 4 if it else 1, f'L-{lot}', 0, None, None, None, 1 if it else 100, 1, '', '') for lot in lots for it in range(10))
store.executemany('INSERT INTO lot VALUES (?, \'SUGAR\')', ((f'L-{it}',) for it in lots))
store.executemany('INSERT INTO sublot VALUES (?, 0, \'A1\', 91)', ((f'L-{it}',) for it in lots))
store.executemany('INSERT INTO movement VALUES (?, ?, ?, ?, ?, ?, ?, ?, ?, ?, ?, ?)', movements)
store.execute('UPDATE meta SET seq = ?', (2 + 10 * len(lots),))
store.commit()
"
lower="
import sqlite3, sys
store = sqlite3.connect(sys.argv[1])
indexes = '''
movement_by_lot movement_by_lot2 movement_by_batch batch_event_by_batch definition_by_class job_by_state batch_by_closed lot_by_def
recipe_by_state job_by_due receipt_by_seq sublot_by_stock
'''
for name in indexes.split():
    store.execute(f'DROP INDEX IF EXISTS {name}')
store.executescript('DROP TABLE edge; DROP TABLE receipt; DROP TABLE recall; DROP TABLE mark; UPDATE meta SET schema = 1')
"
note="
import sqlite3, sys
store, count = sqlite3.connect(sys.argv[1]), int(sys.argv[2])
store.executemany('INSERT INTO receipt VALUES (?, ?, ?)', ((f'K-{it}', it, f'1\n\n\nscrap\nL-{it}\n0\n1\n') for it in range(1, count + 1)))
store.commit()
"
before=
for count in ${@:-1000 10000 100000}; do
  file=$work/$count.db
  "$desk" run "$file" <<< "$goods" > /dev/null
  python3 -c "$fill" "$file" "$count"
  echo "$count movements"
  least "$desk" verify "$file"
  ratio=$(awk -v s="$seconds" -v b="${before:-0}" 'BEGIN { if (b > 0) printf ", %.1f times the file before", s / b }')
  echo "  verify, $(cat "$work/out"): $seconds s$ratio, $memory kB at most"
  before=$seconds
  python3 -c "$lower" "$file"
  timed "$desk" run "$file" < /dev/null
  echo "  raise and adopt: $seconds s, $memory kB at most"
  least "$desk" verify "$file"
  without=$seconds
  python3 -c "$note" "$file" "$count"
  least "$desk" verify "$file"
  more=$(awk -v s="$seconds" -v w="$without" 'BEGIN { printf "%.2f", s - w }')
  echo "  verify with $count receipts: $seconds s, $more s more than without, $memory kB at most"
done
