#!/usr/bin/env bash
# What the proved table of candidates takes: to load all 32,768 groups of 2^20 variables, for one drop, and for one fix.
#
#   bench/table.sh [ROUNDS] [STEPS]
#
# It runs the program of crates/table_bench as its last proof built it: all groups are loaded ROUNDS times, and STEPS
# drops and STEPS fixes are made. Each time is that of the whole program less that of the program that does
# nothing with its table, by the clock, the least of five runs each.
set -eu
cd "$(dirname "$0")/.."

rounds=${1:-20000}
steps=${2:-200000000}
program=crates/table_bench/out/table_bench

if [ ! -x "$program" ]; then
    echo "skipped: $program is not built; run 'rt run' in crates/table_bench first"
    exit 0
fi

# The milliseconds of the program on these words, the least of five runs.
least() {
    local least=0 taken start
    for _ in 1 2 3 4 5; do
        start=$(date +%s%N)
        "$program" "$@" >/dev/null
        taken=$((($(date +%s%N) - start) / 1000000))
        if [ "$least" -eq 0 ] || [ "$taken" -lt "$least" ]; then
            least=$taken
        fi
    done
    echo "$least"
}

"$program" "$rounds" "$steps" "$steps"
base=$(least 0 0 0)
loads=$(least "$rounds" 0 0)
drops=$(least 0 "$steps" 0)
fixes=$(least 0 0 "$steps")
echo "cores: $(nproc)"
awk -v base="$base" -v loads="$loads" -v drops="$drops" -v fixes="$fixes" -v rounds="$rounds" -v steps="$steps" 'BEGIN {
    printf "32,768 groups: %.1f microseconds\n", 1000 * (loads - base) / rounds
    printf "a drop: %.2f ns, a fix: %.2f ns\n", 1000000 * (drops - base) / steps, 1000000 * (fixes - base) / steps }'
