#!/usr/bin/env bash
# Times the migration of growing jobs (bench/trial_job.py), and the check of each answer that comes of it, reading included. Prints for each the
# tables, functions, invariants and obligations, and the processor time in milliseconds of one `desk migrate` and one `desk check`, each the mean of
# so many calls (the first argument, 20 if it is left out), start of the process included, with the most memory in kilobytes.
set -eu
cd "$(dirname "$0")/.."
. bench/common.sh
wants time "GNU time, as Debian's package time has it"
wants python3 "it makes the jobs"
built desk migrate data/job
desk=crates/desk/out/desk
often=${1:-20}
work=$(mktemp -d)
trap 'rm -rf "$work"' EXIT

# The processor time of one call in milliseconds, and the most memory.
timed() {
    command time -o "$work/took" -f '%U %S %M' bash -c 'often=$1; shift; for _ in $(seq "$often"); do "$@" >/dev/null 2>&1; done' - "$often" "$@"
    awk -v often="$often" '{ printf "%.1f ms, %d kB", ($1 + $2) * 1000 / often, $3 }' "$work/took"
}
for tables in 1 2 4 8; do
    python3 bench/trial_job.py "$tables" >"$work/job"
    "$desk" migrate "$work/job" >"$work/answer" 2>/dev/null
    "$desk" check "$work/job" "$work/answer" >/dev/null
    functions=$(grep -cE '^(update|query) ' "$work/answer")
    invariants=$(sed -n '/^invariants$/,/^certificate$/p' "$work/answer" | grep -c ';$')
    obligations=$(grep -cE '^(holds [0-9]+|answers)$' "$work/answer")
    echo "$tables tables, $functions functions, $invariants invariants, $obligations obligations, $(wc -c <"$work/answer") bytes:" \
        "migrate $(timed "$desk" migrate "$work/job"); check $(timed "$desk" check "$work/job" "$work/answer")"
done
