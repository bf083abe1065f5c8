#!/usr/bin/env bash
# A campaign against the built program: random and broken lines and requests, kills, files that can't grow, a full output, slow clients.
# Each attack says how often it was made, and the first that the desk doesn't withstand ends it with status 1. Wants the built program
# (make desk), or another one as PROGRAM. Usage: bench/attacks/hostile.sh [PROGRAM [FOLDER [LINES [KILLS]]]], by default build/desk build
# 100000 1000. hostile.py attacks, and says how.
set -eu
cd "$(dirname "$0")/../.."
program=${1:-build/desk}
folder=${2:-build}
[ -x "$program" ] || { echo "run make desk first" >&2; exit 1; }
mkdir -p "$folder"
work=$(mktemp -d -p "$folder")
trap 'rm -rf "$work"' EXIT
python3 bench/attacks/hostile.py "$program" "$work" "${3:-100000}" "${4:-1000}"
