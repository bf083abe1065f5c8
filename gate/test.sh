#!/usr/bin/env bash
# The gate: that the programs are run on what is in examples/, that docs/crates.svg is what crates.txt gives, docs/READING.md is what the
# definitions give and what repeats the tables, the commands and the questions is what make/tables.py, make/commands.py and make/questions.py
# write, that the documents keep the limits of their words, that mypy accepts the annotations of the scripts, where it is installed, and that
# each edit can still be applied; then, from nothing, every proof and the programs; then every must-fail edit; then the tests of the built
# programs and of the tools, which are in tests/, and at whose end stands what was left out.
#
# It is done in a copy of the repository, build/gate, without the edits: rt ci would prove a crate once more for its first edit, and
# load the libraries below anew for each; gate/edits.py tries them together, over the libraries that rt ci has built.
set -eu
cd "$(dirname "$0")/.."
began=$SECONDS
copy=build/gate
cmp examples/orders.csv crates/order_check/stdin
make/crates.py --check
make/tables.py --check
make/commands.py --check
make/questions.py --check
make/page.py --check
make/words.py --check
make/typed.py
make/reading_list.py --check
gate/edits.py apply
gate/edits.py copy $copy
(cd $copy && rt ci)
proved=$SECONDS
gate/edits.py gate $copy
tried=$SECONDS
DESK_PROGRAMS=$copy/crates/NAME/out/NAME tests/run.py
echo "the gate took $(((SECONDS - began) / 60)) minutes on $(nproc) processors: $((proved - began)) seconds of rt ci, $((tried - proved)) of edits, $((SECONDS - tried)) of the tests"
echo "processor time of the gate, its own and below it that of all it ran:"
times
