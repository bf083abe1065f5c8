#!/usr/bin/env bash
# Questions and commands a second that `serve` answers over 127.0.0.1, one connection after the other, in memory and over a file; beside
# it what `run` does with the same lines over a file, and what a server of Python's standard library answers that has nothing to look
# up. Wants gcc and the built program (make desk), or another one as PROGRAM. Usage:
# bench/serving/serve.sh [PROGRAM [QUESTIONS [COMMANDS [FOLDER]]]], by default build/desk 1000 200 build. The files are in FOLDER: over a
# disk its syncs are most of a command's time, and differ from run to run; in /dev/shm there are none. serving.py measures, and tells what
# is in its figures.
set -eu
cd "$(dirname "$0")/../.."
program=${1:-build/desk}
questions=${2:-1000}
commands=${3:-200}
folder=${4:-build}
[ -x "$program" ] || { echo "run make desk first" >&2; exit 1; }
[ "$questions" -ge 1 ] && [ "$commands" -ge 1 ] || { echo "at least one question and one command" >&2; exit 2; }
mkdir -p build
work=$(mktemp -d -p "$folder")
trap 'rm -rf "$work"' EXIT
python3 bench/serving/serving.py "$program" "$work" "$questions" "$commands"
