#!/usr/bin/env bash
# Times whole calls of the program on jobs without a comment: one insert of many values, of 16, 64 and 256 kB. Each job is read whole and then refused by a typing rule. Prints, for each size, the processor time of one call of 20 in milliseconds, and the most memory in kilobytes.
set -eu
cd "$(dirname "$0")/.."
. bench/common.sh
wants python3 "it makes the inputs"
desk=crates/desk/out/desk
built desk migrate data/job
work=$(mktemp -d)
trap 'rm -rf "$work"' EXIT
for size in 16384 65536 262144; do
    python3 - "$size" >"$work/job" <<'PY'
import sys
size = int(sys.argv[1])
head = "old table t { a: int } new table t { a: int } program update u() { insert into t { t.a = 0"
value = ", t.a = 1"
tail = " }; }"
print(head + value * ((size - len(head) - len(tail)) // len(value)) + tail, end="")
PY
    python3 - "$desk" "$work/job" "$size" <<'PY'
import resource, subprocess, sys
desk, job, size = sys.argv[1:]
times = 20
for _ in range(times):
    run = subprocess.run([desk, "migrate", job], stdout=subprocess.DEVNULL, stderr=subprocess.PIPE)
    assert run.returncode == 2 and run.stderr.endswith(b": InsertCover at 0 0\n"), run
used = resource.getrusage(resource.RUSAGE_CHILDREN)
print(size, round(1000 * (used.ru_utime + used.ru_stime) / times, 2), "ms", used.ru_maxrss, "kB")
PY
done
