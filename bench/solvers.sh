#!/usr/bin/env bash
# Times `dimacs cnf` on random clauses and on a chooser's problem, and `dimacs wcnf` on the pairs of columns of a job. Where there is clasp, it is told to decide in order and timed beside it:
# then the ratio is printed too, and whether both give the same model.
set -eu
cd "$(dirname "$0")/.."
. bench/common.sh
dimacs=crates/dimacs/out/dimacs
built dimacs wcnf
work=$(mktemp -d)
trap 'rm -rf "$work"' EXIT

# Three different variables a clause, 4.26 clauses a variable.
random() {
    awk -v n="$1" -v seed="$2" 'BEGIN {
        srand(seed); m = int(4.26 * n + 0.5); print "p cnf", n, m
        for (i = 0; i < m; i++) {
            a = int(rand() * n) + 1
            do b = int(rand() * n) + 1; while (b == a)
            do c = int(rand() * n) + 1; while (c == a || c == b)
            print (rand() < 0.5 ? -a : a), (rand() < 0.5 ? -b : b), (rand() < 0.5 ? -c : c), 0
        }
    }'
}

# 12 holes with one of 10 options each, and 500 blocks of an option in each of two to four holes.
chooser() {
    awk -v seed="$1" 'BEGIN {
        srand(seed); print "p cnf 120", 12 + 12 * 45 + 500
        for (h = 0; h < 12; h++) {
            for (o = 1; o <= 10; o++) printf "%d ", 10 * h + o
            print 0
            for (o = 1; o <= 10; o++) for (q = o + 1; q <= 10; q++) print -(10 * h + o), -(10 * h + q), 0
        }
        for (i = 0; i < 500; i++) {
            split("", taken)
            for (k = 2 + int(rand() * 3); k > 0; k--) {
                do h = int(rand() * 12); while (h in taken)
                taken[h] = 1
                printf "%d ", -(10 * h + int(rand() * 10) + 1)
            }
            print 0
        }
    }'
}

# Which column goes to which, where the texts of so many tables move to one pool: the pairs of columns with their weights.
pairs() {
    awk -v n="$1" 'BEGIN {
        top = 1000
        # The pairs by the old column, then by the new one: numbers with numbers, texts with texts and with the pool.
        for (i = 0; i < n; i++) {
            for (j = 0; j < n; j++) take("id" i, "id" j, i == j ? 3 : -1)
            for (j = 0; j < n; j++) take("a" i, "a" j, i == j ? 3 : -1)
            take("a" i, "pool", -9)
            for (j = 0; j < n; j++) take("b" i, "a" j, i == j ? -6 : -9)
            take("b" i, "pool", -1)
        }
        # Each old column goes to one new one or two, and to each new one goes one.
        for (c in from) {
            put(from[c]); many = split(from[c], v, " ")
            for (x = 1; x <= many; x++) for (y = x + 1; y <= many; y++) for (z = y + 1; z <= many; z++)
                put(-v[x] " " (-v[y]) " " (-v[z]))
        }
        for (c in to) put(to[c])
        print "p wcnf", vars, clauses + vars, top
        for (k = 1; k <= clauses; k++) print top, clause[k], 0
        for (k = 1; k <= vars; k++) print (weight[k] > 0 ? weight[k] " " k : -weight[k] " -" k), 0
    }
    function take(c, d, w) { vars++; from[c] = from[c] " " vars; to[d] = to[d] " " vars; weight[vars] = w }
    function put(c) { clauses++; clause[clauses] = c }'
}

# Seconds of processor time, user and system, for one run: nine together by nine, or a single one where the first takes more than a second.
seconds() {
    local TIMEFORMAT='%U %S' runs=1 used
    used=$({ time ask 1 "$@"; } 2>&1)
    if awk '{ exit !($1 + $2 < 1) }' <<<"$used"; then
        runs=9
        used=$({ time ask "$runs" "$@"; } 2>&1)
    fi
    awk -v runs="$runs" '{ printf "%.4f", ($1 + $2) / runs }' <<<"$used"
}

# Asks so many times for the answer, of which the last one is kept.
ask() {
    local runs=$1 run
    shift
    for ((run = 0; run < runs; run++)); do
        timeout 300 "$@" <"$work/cnf" >"$work/answer" 2>/dev/null || true
    done
}

# The true literals, one a line, and the verdict.
plain() {
    awk '$1 == "s" { verdict = $2 } $1 == "v" { for (i = 2; i <= NF; i++) if ($i != 0) print $i } END { print verdict }' "$work/answer"
}

# Seconds of clasp behind those of dimacs, their ratio, and whether the answers are the same.
beside() {
    local theirs same=same
    theirs=$(seconds clasp --heuristic=None --sign-def=pos --sign-fix --sat-prepro=no --save-progress=0)
    plain >"$work/theirs"
    cmp -s "$work/ours" "$work/theirs" || same=DIFFERENT
    awk -v a="$1" -v b="$theirs" -v same="$same" 'BEGIN { printf " %9.4f s  ratio %8.1f  %s", b, a / b, same }'
}

compare() {
    local ours
    ours=$(seconds "$dimacs" cnf)
    plain >"$work/ours"
    printf '%-22s %-14s %9.4f s' "$1" "$(tail -n 1 "$work/ours")" "$ours"
    if command -v clasp >/dev/null; then beside "$ours"; fi
    echo
}

weigh() {
    local ours
    ours=$(seconds "$dimacs" wcnf)
    printf '%-22s %-14s %9.4f s\n' "$1" "$(head -n 1 "$work/answer")" "$ours"
}

echo "problem                answer              dimacs       clasp"
echo "p cnf 0 0" >"$work/cnf"
compare "no clauses (starting)"
for n in 40 60 80 120; do
    for seed in 1 2 3; do
        random "$n" "$seed" >"$work/cnf"
        compare "random $n, seed $seed"
    done
done
for seed in 1 2 3; do
    chooser "$seed" >"$work/cnf"
    compare "chooser, seed $seed"
done
for n in 4 6 8; do
    pairs "$n" >"$work/cnf"
    weigh "pairs of $n tables"
done
