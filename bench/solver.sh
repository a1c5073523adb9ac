#!/usr/bin/env bash
# What one query of the proved solver takes on random formulas of clauses of three literals near the threshold, and on
# the DIMACS files that are named. MiniSat stands beside it where it is installed (Debian's package minisat), and
# another solver where YARDSTICK has its command. That one takes the file as its last word, and writes to standard
# error, somewhere, 'first S' with the seconds of its first query and '(first N' with its conflicts.
#
#   [BUDGET=N] [YARDSTICK='COMMAND WORD ..'] bench/solver.sh [FILE ..]
#
# With BUDGET the proved solver learns at most so many clauses. A conflict gets dearer with the clauses that are kept, so
# what one costs is best compared where the yardstick, by its own words, ends after as many.
#
# It runs the program of crates/solver_bench as its last proof built it. The milliseconds are those of the processor,
# the least of three runs: of the yardstick its own, of MiniSat those of the whole program, and of the proved solver
# those of the whole program less those of one that only reads the formula and makes the solver.
# A line has, for each solver, its conflicts, its milliseconds and the microseconds a conflict. The last lines have the
# ratios of the proved solver to the yardstick, as geometric means.
set -eu
cd "$(dirname "$0")/.."

budget=${BUDGET:-2000000}
program=crates/solver_bench/out/solver_bench

if [ ! -x "$program" ]; then
    echo "skipped: $program is not built; run 'rt run' in crates/solver_bench first"
    exit 0
fi

work=$(mktemp -d)
trap 'rm -rf "$work"' EXIT

# The least milliseconds of the processor of three runs of a command on a file; its output goes to files.
least() {
    local file=$1 least=0 taken
    local TIMEFORMAT='%U %S'
    shift
    for _ in 1 2 3; do
        { time "$@" <"$file" >"$work/answer" 2>"$work/notes" || true; } 2>"$work/time"
        taken=$(tail -n 1 "$work/time" | awk '{ printf "%d", 1000 * ($1 + $2) }')
        if [ "$least" -eq 0 ] || [ "$taken" -lt "$least" ]; then
            least=$taken
        fi
    done
    echo "$least"
}

# 'CONFLICTS MILLISECONDS' of each solver on the file.
proved() {
    local taken loading
    loading=$(least "$1" "$program" load)
    taken=$(least "$1" "$program" read "$budget")
    echo "$(awk '/ conflicts$/ { print $1 }' "$work/answer") $((taken > loading ? taken - loading : 1))"
}
yardstick() {
    local least=none taken
    for _ in 1 2 3; do
        $YARDSTICK "$1" >"$work/answer" 2>"$work/notes" || true
        taken=$(sed -n 's/.* first \([0-9.]*\) .*/\1/p' "$work/notes" | awk 'NR == 1 { printf "%d", 1000 * $1 }')
        if [ "$least" = none ] || [ "$taken" -lt "$least" ]; then
            least=$taken
        fi
    done
    echo "$(sed -n 's/.*(first \([0-9]*\).*/\1/p' "$work/notes" | head -n 1) $least"
}
minisat_of() {
    local taken
    taken=$(least "$1" minisat "$1")
    echo "$(awk '/^conflicts/ { print $3 }' "$work/answer") $taken"
}

# A solver's part of a line.
shown() {
    awk -v name="$1" -v n="$2" -v ms="$3" \
        'BEGIN { printf "; %s %d conflicts, %d ms, %.1f us each", name, n, ms, 1000 * ms / (n > 0 ? n : 1) }'
}

for words in "150 640 1" "200 852 1" "200 840 5" "225 958 3" "250 1065 2" "250 1040 7" \
    "175 746 8" "200 830 9" "225 930 4" "225 950 6" "250 1040 11" "250 1050 13"; do
    # shellcheck disable=SC2086 # three words
    "$program" print $words >"$work/random-${words// /-}.cnf"
done

: >"$work/ratios"
echo "cores: $(nproc)"
for file in "$work"/random-*.cnf "$@"; do
    a=$(proved "$file")
    printf '%s: %s' "$(basename "$file" .cnf)" "$(head -n 1 "$work/answer")"
    # shellcheck disable=SC2086 # two numbers
    shown proved $a
    if [ -n "${YARDSTICK:-}" ]; then
        b=$(yardstick "$file")
        # shellcheck disable=SC2086 # two numbers
        shown yardstick $b
        echo "$a $b" >>"$work/ratios"
    fi
    if command -v minisat >/dev/null; then
        # shellcheck disable=SC2046 # two numbers
        shown minisat $(minisat_of "$file")
    fi
    echo
done
awk '$1 > 0 && $3 > 0 && $2 > 0 && $4 > 0 { n++; time += log($2 / $4); each += log($2 / $1 * $3 / $4) }
    END { if (n > 0) printf "%d formulas: time %.2f, a conflict %.2f times the yardstick'"'"'s\n", n, exp(time / n), exp(each / n) }' \
    "$work/ratios"
