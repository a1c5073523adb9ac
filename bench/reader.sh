#!/usr/bin/env bash
# What the proved reader takes for a text of 2,000,000 clauses of three literals over 2^20 variables, beside
# the time that MiniSat names as that of its parse of the same file, by default and with its preprocessing
# off (-no-pre), where it keeps no lists of occurrences and parses fastest.
#
#   bench/reader.sh [CLAUSES] [VARIABLES]
#
# It runs the program of crates/reader_bench as its last proof built it. Ours is the processor time of the
# whole program, user and system, with the end of the process. Each is the least of five runs. The file
# stays in out/bench.
set -eu
cd "$(dirname "$0")/.."

clauses=${1:-2000000}
variables=${2:-1048576}
program=crates/reader_bench/out/reader_bench
text=out/bench/reader-$clauses-$variables.cnf

if [ ! -x "$program" ]; then
    echo "skipped: $program is not built; run 'rt run' in crates/reader_bench first"
    exit 0
fi
if ! command -v minisat >/dev/null; then
    echo "skipped: there is no minisat"
    exit 0
fi

# Writes random clauses, the same on every run.
generate() {
    awk -v clauses="$clauses" -v vars="$variables" '
        function draw() { seed = (seed * 1103515245 + 12345) % 2147483648; return seed }
        function literal() { v = int(draw() / 8) % vars + 1; return int(draw() / 65536) % 2 ? -v : v }
        BEGIN {
            seed = 12345
            print "p cnf", vars, clauses
            for (i = 0; i < clauses; i++) print literal(), literal(), literal(), 0
        }'
}

# The milliseconds of the processor that the proved program takes.
reader_time() {
    local TIMEFORMAT='%U %S'
    { time "$program" "$text" >out/bench/answer; } 2>&1 | awk '{ printf "%d", 1000 * ($1 + $2) }'
}

# The milliseconds that MiniSat names for its parse. It is stopped once it has named them.
minisat_time() {
    { minisat -cpu-lim=120 "$@" "$text" 2>/dev/null || true; } |
        awk '/Parse time/ { printf "%d", 1000 * $4; exit }'
}

# The least of five runs.
least() {
    local least=0 taken
    for _ in 1 2 3 4 5; do
        taken=$("$@")
        if [ "$least" -eq 0 ] || [ "$taken" -lt "$least" ]; then
            least=$taken
        fi
    done
    echo "$least"
}

# The most kilobytes that the program had in memory.
peak() {
    if [ -x /usr/bin/time ]; then
        { /usr/bin/time -f %M "$program" "$text" >/dev/null; } 2>&1
    else
        echo 0
    fi
}

mkdir -p out/bench
if [ ! -s "$text" ]; then
    generate >"$text.new"
    mv "$text.new" "$text"
fi

ours=$(least reader_time)
cat out/bench/answer
theirs=$(least minisat_time)
fastest=$(least minisat_time -no-pre)
echo "cores: $(nproc)"
echo "bytes: $(stat -c %s "$text")"
echo "proved: $ours ms, minisat: $theirs ms, minisat -no-pre: $fastest ms"
awk -v ours="$ours" -v theirs="$theirs" -v fastest="$fastest" 'BEGIN {
    printf "speed against minisat: %.2f, against minisat -no-pre: %.2f\n", theirs / ours, fastest / ours }'

# A clause is a vector's head of 24 bytes, and 4 bytes a literal.
awk -v peak="$(peak)" -v clauses="$clauses" 'BEGIN {
    own = clauses * (24 + 3 * 4) / 1024
    if (peak == 0) print "peak memory: not measured, there is no /usr/bin/time"
    else printf "peak memory: %d KB, the formula: %d KB, ratio: %.2f\n", peak, own, peak / own }'
