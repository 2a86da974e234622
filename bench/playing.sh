#!/usr/bin/env bash
# Times the playing of calls: by `measure` over a store in memory at a size and at a quarter of it, and by whole calls of `desk run` beside
# python3's sqlite3 on the same file of calls. Prints microseconds for `measure`; for the others seconds of the processor, seconds in all and the
# most memory in kilobytes.
set -eu
cd "$(dirname "$0")/.."
. bench/common.sh
wants time "GNU time, as Debian's package time has it"
wants python3 "its module sqlite3 plays the same calls"
measure=crates/measure/out/measure
built measure reading 16384 1
for size in 5000 20000; do "$measure" one-table-calls "$size"; done
for size in 2000 8000; do "$measure" joined-calls "$size"; done

built desk migrate data/job
work=$(mktemp -d)
trap 'rm -rf "$work"' EXIT
cat >"$work/job" <<'JOB'
old
table t { id: int, v: int }
new
program
update add(id: int, v: int) { insert into t { t.id = id, t.v = v }; }
update cut(id: int) { delete t from t where t.id = id; }
query get(id: int) { select t.v from t where t.id = id; }
JOB
# A row is added, looked up and taken away again: 100,000 calls on a table of at most two rows.
awk 'BEGIN { for (n = 0; n < 33334; n++) { print "add," n "," n; print "get," n; if (n < 33332) print "cut," n } }' >"$work/small"
# Each call adds a row or looks the last one up: 20,000 calls on a table that grows.
awk 'BEGIN { for (n = 0; n < 10000; n++) { print "add," n "," n; print "get," n } }' >"$work/growing"

timed() {
    command time -f '%U s user, %S s system, %e s in all, %M kB' "$@"
}
for calls in small growing; do
    echo "$calls: $(wc -l <"$work/$calls") calls"
    echo -n "desk run: "
    timed crates/desk/out/desk run "$work/job" "$work/$calls" >"$work/ours"
    echo -n "python3 sqlite3: "
    timed python3 bench/calls_in_sqlite.py "$work/$calls" >"$work/theirs"
    cmp "$work/ours" "$work/theirs"
    echo "the answers are equal: $(wc -c <"$work/ours") bytes"
done
