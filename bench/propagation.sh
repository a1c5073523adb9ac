#!/usr/bin/env bash
# What proved propagation takes on random clauses of three literals, and of two, beside a plain C++ loop of
# the same design (propagation_yardstick.cpp, compiled with -O2), in one run. Both do the same rounds and have
# to print the same counts.
#
#   bench/propagation.sh [VARIABLES] [CLAUSES] [ROUNDS] [CLAUSES_OF_TWO]
#
# It runs the program of crates/propagation_bench as its last proof built it. The milliseconds are those of
# the processor, the least of three runs, without what the clauses' making takes.
set -eu
cd "$(dirname "$0")/.."

vars=${1:-250000}
clauses=${2:-1000000}
rounds=${3:-40}
twos=${4:-0}
program=crates/propagation_bench/out/propagation_bench

if [ ! -x "$program" ]; then
    echo "skipped: $program is not built; run 'rt run' in crates/propagation_bench first"
    exit 0
fi
if ! command -v c++ >/dev/null; then
    echo "skipped: there is no C++ compiler"
    exit 0
fi

work=$(mktemp -d)
trap 'rm -rf "$work"' EXIT
c++ -O2 -o "$work/yardstick" bench/propagation_yardstick.cpp

# The milliseconds of the processor that a command takes.
milliseconds() {
    local TIMEFORMAT=%3U
    { time "$@" >/dev/null; } 2>&1 | tr -d '.' | sed 's/^0*\(.\)/\1/'
}

# What the rounds of a program take: the least of three runs, less the least without rounds.
rounds_of() {
    local all=0 made=0 taken
    for _ in 1 2 3; do
        taken=$(milliseconds "$1" "$vars" "$clauses" "$rounds" "$twos")
        if [ "$all" -eq 0 ] || [ "$taken" -lt "$all" ]; then
            all=$taken
        fi
        taken=$(milliseconds "$1" "$vars" "$clauses" 0 "$twos")
        if [ "$made" -eq 0 ] || [ "$taken" -lt "$made" ]; then
            made=$taken
        fi
    done
    echo $((all - made))
}

"$program" "$vars" "$clauses" "$rounds" "$twos" >"$work/proved"
"$work/yardstick" "$vars" "$clauses" "$rounds" "$twos" >"$work/plain"
cat "$work/proved"
if ! cmp -s "$work/proved" "$work/plain"; then
    echo "the counts differ"
    exit 1
fi
assigned=$(sed -n 's/^assigned //p' "$work/proved")
proved=$(rounds_of "$program")
plain=$(rounds_of "$work/yardstick")
echo "cores: $(nproc)"
echo "proved: $proved ms, plain: $plain ms"
awk -v n="$assigned" -v a="$proved" -v b="$plain" \
    'BEGIN { printf "proved: %.0f propagations a second, ratio: %.2f\n", 1000 * n / a, b / a }'
