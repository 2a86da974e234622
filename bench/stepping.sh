#!/usr/bin/env bash
# Times first steps, whole proofs, candidate invariants, test lists, sketches and correspondences. Prints microseconds.
set -eu
cd "$(dirname "$0")/.."
. bench/common.sh
measure=crates/measure/out/measure
built measure reading 16384 1
for sum in "256 16" "256 4" "64 16"; do
    read -r terms comparisons <<<"$sum"
    "$measure" first "$terms" "$comparisons" 20
done
for terms in 16 63; do
    "$measure" steps "$terms"
done
for tables in 2 4 8; do
    "$measure" obligations "$tables"
done
"$measure" growing 7 7
"$measure" growing 15 14
"$measure" candidates 20
"$measure" failing 20000
"$measure" sketching 32 10
for correspondences in 1 16; do
    "$measure" ranking 8 "$correspondences"
done
