#!/usr/bin/env bash
# Commands a second of one run over a file, each given after the reply to the one before it, at some sizes of the desk, beside programs
# in Python and in C that do the same lookups and writes over sqlite3; the number behind each of these is what part of its commands a
# second the desk does. Wants the built program (make desk), or another one as PROGRAM. Usage:
# bench/commands/commands.sh [PROGRAM [FOLDER [COMMANDS [SIZE ..]]]], by default build/desk build 500 1000 10000; a SIZE is so many
# movements, with as many receipts or with those behind a `/`, as 1000/1000000. The files are in FOLDER: over a disk its syncs are most of
# a command's time; in /dev/shm there are none. Where FOLDER is :memory: there are no files: the desk and the programs beside it keep their
# tables in memory. commands.py measures, and says what each kind does.
set -eu
cd "$(dirname "$0")/../.."
program=${1:-build/desk}
folder=${2:-build}
commands=${3:-500}
[ $# -ge 3 ] && shift 3 || set --
[ -x "$program" ] || { echo "run make desk first" >&2; exit 1; }
kept=file
[ "$folder" != :memory: ] || { kept=memory; folder=/dev/shm; }
mkdir -p "$folder"
work=$(mktemp -d -p "$folder")
trap 'rm -rf "$work"' EXIT
python3 bench/commands/commands.py "$program" "$work" "$commands" "$kept" ${@:-1000 10000}
