#!/bin/sh
# Builds plan and the plain program, runs both on the same files, checks that their answers are equal, and prints how they
# compare. With --docs, the table and the picture of docs/ are written anew.
#
#   bench/run.sh [--docs] [RUNS]
set -eu
cd "$(dirname "$0")/.."
docs=
if [ "${1-}" = --docs ]; then
    docs=yes
    shift
fi
out=target/bench
mkdir -p "$out"

(cd crates/plan && rt run) <samples/three.campaign >"$out/check.log" 2>&1 || { tail -n 20 "$out/check.log"; exit 1; }
rustc -O -o "$out/baseline" bench/baseline.rs
python3 bench/make.py "$out"
python3 bench/measure.py crates/plan/out/plan "$out/baseline" "$out" "${1-21}" | tee "$out/table.md"
if [ -n "$docs" ]; then
    python3 bench/plot.py "$out/table.md" docs/performance.svg docs/PERFORMANCE.md
fi
