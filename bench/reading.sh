#!/usr/bin/env bash
# Times the reading of plain jobs of 16, 64 and 256 kB, and one whole call of `desk` on the largest. Prints microseconds, seconds and kilobytes.
set -eu
cd "$(dirname "$0")/.."
. bench/common.sh
wants time "GNU time, as Debian's package time has it"
measure=crates/measure/out/measure
built measure reading 16384 1
for size in 16384 65536 262144; do
    "$measure" reading "$size" 20
done
work=$(mktemp -d)
trap 'rm -rf "$work"' EXIT
"$measure" reading 262144 >"$work/job"
built desk migrate data/job
command time -f 'desk migrate: %e s, %M kB' crates/desk/out/desk migrate "$work/job" >/dev/null
