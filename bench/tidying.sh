#!/usr/bin/env bash
# Times the tidying of sums of terms over 16 variables, up to the most terms and comparisons that an expression has. Prints microseconds.
set -eu
cd "$(dirname "$0")/.."
. bench/common.sh
measure=crates/measure/out/measure
built measure reading 16384 1
for size in "256 1" "256 16" "1 256" "1 1024" "1 4096"; do
    read -r terms comparisons <<<"$size"
    "$measure" tidying "$terms" "$comparisons" 10
done
