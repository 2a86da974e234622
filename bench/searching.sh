#!/usr/bin/env bash
# Times whole migrations: the jobs of examples/, and those given as further arguments, each so often (the first argument, 100 if it is left out). Prints for each how it ended, the processor time of a call in milliseconds, start of the process included, and the most memory in kilobytes.
set -eu
cd "$(dirname "$0")/.."
. bench/common.sh
wants time "GNU time, as Debian's package time has it"
program=crates/desk/out/desk
built desk migrate data/job
often=${1:-100}
said=$(mktemp) took=$(mktemp)
trap 'rm -f "$said" "$took"' EXIT
mapfile -t jobs < <(grep -lx migrate examples/*/words | sed "s/words$/job/")
for job in "${jobs[@]}" "${@:2}"; do
    "$program" migrate "$job" >/dev/null 2>"$said" || true
    command time -o "$took" -f '%U %S %M' bash -c 'for _ in $(seq "$1"); do "$2" migrate "$3" >/dev/null 2>&1 || true; done' - "$often" "$program" "$job"
    awk -v job="$job" -v ended="$(tail -n 1 "$said")" -v often="$often" '{ printf "%s: %s, %.1f ms, %d KB\n", job, ended, ($1 + $2) * 1000 / often, $3 }' "$took"
done
