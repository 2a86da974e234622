#!/usr/bin/env bash
# Times the finding of classes in terms of up to 4,096 equalities, the most comparisons that an expression has. Prints microseconds.
set -eu
cd "$(dirname "$0")/.."
. bench/common.sh
measure=crates/measure/out/measure
built measure reading 16384 1
for ties in chain-ties pair-ties; do
    for equalities in 256 1024 4096; do
        "$measure" "$ties" "$equalities" 10
    done
done
