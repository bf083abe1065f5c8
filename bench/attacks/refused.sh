#!/usr/bin/env bash
# Refuses each allocation of each word of the built desk over a file in turn, and of a server of one request: how its runs ended is
# counted, and after each the file is verified. refused.py says what is looked at. Wants gcc and the built program (make desk).
# Usage: bench/attacks/refused.sh [PROGRAM [STEP]], by default build/desk, and each allocation.
set -eu
cd "$(dirname "$0")/../.."
program=${1:-build/desk}
[ -x "$program" ] || { echo "run make desk first" >&2; exit 1; }
work=$(mktemp -d)
trap 'rm -rf "$work"' EXIT
gcc -shared -fPIC -O1 -o "$work/refuse.so" bench/faults/refuse.c -ldl
python3 bench/attacks/refused.py "$program" "$work/refuse.so" "$work" "${2:-1}"
