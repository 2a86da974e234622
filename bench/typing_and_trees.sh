#!/usr/bin/env bash
# Times the listing of link trees on schemas of 16 tables and 32 links, and the typing of programs of 1, 8 and 32 updates. Prints microseconds.
set -eu
cd "$(dirname "$0")/.."
. bench/common.sh
measure=crates/measure/out/measure
built measure reading 16384 1
for shape in star chain ring dense pair four; do
    echo "$shape"
    "$measure" "$shape" 100
done
for updates in 1 8 32; do
    "$measure" typing "$updates" 10
done
