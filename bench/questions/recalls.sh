#!/usr/bin/env bash
# The time of recalls that reach every lot of a desk in a file, in a chain, a fan and a mesh of lots, and of their lifts, beside the trace of
# the same; and of verifying the file with 100 open recalls. Wants the built program (make desk), or another one as PROGRAM. Usage:
# bench/questions/recalls.sh [PROGRAM [FOLDER [EDGES ..]]], by default build/desk build 1000 10000. recalls.py measures.
exec "$(dirname "$0")/over_files.sh" recalls "1000 10000" "$@"
