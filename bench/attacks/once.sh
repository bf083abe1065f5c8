#!/usr/bin/env bash
# A client that sends commands under references to a desk that is killed again and again, until each is answered: each acts once. Wants
# the built program (make desk), or another one as PROGRAM. Usage: bench/attacks/once.sh [PROGRAM [FOLDER [COMMANDS [KILLS]]]], by default
# build/desk build 10000 1000. once.py sends, and says how.
set -eu
cd "$(dirname "$0")/../.."
program=${1:-build/desk}
folder=${2:-build}
[ -x "$program" ] || { echo "run make desk first" >&2; exit 1; }
mkdir -p "$folder"
work=$(mktemp -d -p "$folder")
trap 'rm -rf "$work"' EXIT
python3 bench/attacks/once.py "$program" "$work" "${3:-10000}" "${4:-1000}"
