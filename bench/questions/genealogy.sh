#!/usr/bin/env bash
# The time of traces over the genealogy of a desk in a file, in a chain, a fan and a mesh of lots, back and forward, beside SQLite's own
# recursive query over the same table. Wants the built program (make desk), or another one as PROGRAM. Usage:
# bench/questions/genealogy.sh [PROGRAM [FOLDER [EDGES ..]]], by default build/desk build 1000 10000. genealogy.py measures.
exec "$(dirname "$0")/over_files.sh" genealogy "1000 10000" "$@"
