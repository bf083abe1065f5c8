#!/usr/bin/env bash
# The processor time of a page of some lists, over desks in files of some numbers of orders and lots, beside that of one order. Wants the
# built program (make desk), or another one as PROGRAM. Usage: bench/questions/lists.sh [PROGRAM [FOLDER [N ..]]], by default build/desk
# build 1000 100000. lists.py measures.
exec "$(dirname "$0")/over_files.sh" lists "1000 100000" "$@"
