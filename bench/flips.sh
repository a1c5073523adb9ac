#!/usr/bin/env bash
# What the marks of critical variables cost against the test of a model, on one formula of 2,000,000
# clauses of three literals over 500,000 variables. It runs the program of crates/flip_bench as its last
# proof built it, and prints the processor time of a round of each, by the least of five runs, and their ratio.
set -eu
cd "$(dirname "$0")/.."

program=crates/flip_bench/out/flip_bench
vars=500000
clauses=2000000
few=5
many=25

if [ ! -x "$program" ]; then
    echo "skipped: $program is not built; run 'rt run' in crates/flip_bench first"
    exit 0
fi

# The milliseconds of the processor that the program takes for a task and so many rounds.
milliseconds() {
    local TIMEFORMAT=%3U
    { time "$program" "$1" "$vars" "$clauses" "$2" >/dev/null; } 2>&1 | tr -d '.' | sed 's/^0*//'
}

# The least milliseconds of five runs.
least() {
    local least=0 taken
    for _ in 1 2 3 4 5; do
        taken=$(milliseconds "$1" "$2")
        if [ "$least" -eq 0 ] || [ "$taken" -lt "$least" ]; then
            least=$taken
        fi
    done
    echo "$least"
}

# The microseconds of one round: the making of the formula is the same in both runs and falls out.
per_round() {
    echo $((($(least "$1" "$many") - $(least "$1" "$few")) * 1000 / (many - few)))
}

model_test=$(per_round is_model)
marks=$(per_round critical)
echo "cores: $(nproc)"
echo "is_model: $model_test microseconds a round"
echo "critical: $marks microseconds a round"
awk -v a="$marks" -v b="$model_test" 'BEGIN { printf "ratio: %.2f\n", a / b }'
