#!/usr/bin/env bash
# What walks over a model cost: of a chain of implications, all true, walked from its last variable on, so that the
# last candidate of the first pass is the first to be flipped, which frees all others, one after another; and on a
# formula of 2,000,000 clauses of three literals over 500,000 variables, against the one pass for the critical
# variables. It runs the program of crates/flip_bench as its last proof built it, and prints processor times by the
# least of five runs.
set -eu
cd "$(dirname "$0")/.."

program=crates/flip_bench/out/flip_bench
few=2
many=7

if [ ! -x "$program" ]; then
    echo "skipped: $program is not built; run 'rt run' in crates/flip_bench first"
    exit 0
fi

# The milliseconds of the processor that the program takes for a task on so many variables and clauses, so often.
milliseconds() {
    local TIMEFORMAT=%3U
    { time "$program" "$1" "$2" "$3" "$4" >/dev/null; } 2>&1 | tr -d '.' | sed 's/^0*//'
}

# The least milliseconds of five runs.
least() {
    local least=0 taken
    for _ in 1 2 3 4 5; do
        taken=$(milliseconds "$@")
        if [ "$least" -eq 0 ] || [ "$taken" -lt "$least" ]; then
            least=$taken
        fi
    done
    echo "$least"
}

# The microseconds of one round: what is made before the rounds is the same in both runs and falls out.
per_round() {
    echo $((($(least "$1" "$2" "$3" "$many") - $(least "$1" "$2" "$3" "$few")) * 1000 / (many - few)))
}

echo "cores: $(nproc)"
for vars in 65536 131072 262144 524288 1048576; do
    round=$(per_round chain "$vars" "$vars")
    awk -v n="$vars" -v t="$round" \
        'BEGIN { printf "chain of %d: %d microseconds a walk, %.0f nanoseconds a candidate\n", n, t, t * 1000 / n }'
done
for task in critical singles occurrences walk; do
    echo "$task: $(per_round "$task" 500000 2000000) microseconds a round"
done
