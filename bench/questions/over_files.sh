#!/usr/bin/env bash
# What genealogy.sh, lists.sh and recalls.sh do: run a measure of this folder with the built program, a folder for its files, which is
# removed at the end, and sizes. Usage: bench/questions/over_files.sh MEASURE SIZES [PROGRAM [FOLDER [SIZE ..]]], by default build/desk
# build and SIZES.
set -eu
cd "$(dirname "$0")/../.."
measure=$1 sizes=$2
shift 2
program=${1:-build/desk}
folder=${2:-build}
[ $# -ge 2 ] && shift 2 || set --
[ -x "$program" ] || { echo "run make desk first" >&2; exit 1; }
mkdir -p "$folder"
work=$(mktemp -d -p "$folder")
trap 'rm -rf "$work"' EXIT
python3 "bench/questions/$measure.py" "$program" "$work" ${@:-$sizes}
