#!/usr/bin/env bash
# Traces over 10^3, 10^4 and 10^5 edges in memory, in a chain, a fan and a mesh, with the seconds of each. Wants the built
# program (`rt run` in crates/bench_trace).
set -eu
cd "$(dirname "$0")/../.."
program=$PWD/crates/bench_trace/out/bench_trace
for shape in chain fan mesh; do
  for count in 1000 10000 100000; do
    seconds=$( { /usr/bin/time -f '%e' "$program" "$shape" "$count" > /dev/null; } 2>&1 )
    echo "$shape of $("$program" "$shape" "$count"), $seconds s"
  done
done
