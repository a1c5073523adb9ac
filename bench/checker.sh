#!/usr/bin/env bash
# What the proved checker takes for a generated proof, beside a plain C++ checker of the same design
# (lrat_yardstick.cpp, compiled with -O2), on the same files in one run.
#
#   bench/checker.sh [LINES] [VARIABLES]
#
# It runs the program of crates/checker_bench as its last proof built it. Both programs read the formula
# and the proof, and take each line; the seconds are those of the whole programs, the least of three runs.
set -eu
cd "$(dirname "$0")/.."

lines=${1:-1000000}
variables=${2:-20000}
program=crates/checker_bench/out/checker_bench

if [ ! -x "$program" ]; then
    echo "skipped: $program is not built; run 'rt run' in crates/checker_bench first"
    exit 0
fi
if ! command -v c++ >/dev/null; then
    echo "skipped: there is no C++ compiler"
    exit 0
fi

work=$(mktemp -d)
trap 'rm -rf "$work"' EXIT
c++ -O2 -o "$work/yardstick" bench/lrat_yardstick.cpp
"$work/yardstick" make "$lines" "$variables" 1 "$work/formula.cnf" "$work/proof.lrat"

# The milliseconds of a command, the least of three runs.
least() {
    local least=0 taken start
    for _ in 1 2 3; do
        start=$(date +%s%N)
        "$@" >"$work/answer"
        taken=$((($(date +%s%N) - start) / 1000000))
        if [ "$least" -eq 0 ] || [ "$taken" -lt "$least" ]; then
            least=$taken
        fi
    done
    echo "$least"
}

proved=$(least "$program" "$work/formula.cnf" "$work/proof.lrat")
cat "$work/answer"
plain=$(least "$work/yardstick" check "$work/formula.cnf" "$work/proof.lrat")
cat "$work/answer"
echo "cores: $(nproc)"
echo "proved: $proved ms, plain: $plain ms"
awk -v lines="$lines" -v a="$proved" -v b="$plain" \
    'BEGIN { printf "proved: %.0f lines a second, ratio: %.2f\n", 1000 * lines / a, a / b }'
