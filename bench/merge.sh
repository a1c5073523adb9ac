#!/usr/bin/env bash
# What writing and reading logs, merging them and trimming the merged proof take: the milliseconds of the processor, the
# least of five runs, without what the drawing and the tasks before take, and the most memory in use.
#
#   bench/merge.sh [LOGS] [ENTRIES] [LITERALS] [HINTS] [STEP]
#
# It runs the program of crates/merge_bench as its last proof built it: so many logs, each of so many entries with so many
# literals and hints. With a step hints go to entries at multiples of it, so that few entries are needed.
set -eu
cd "$(dirname "$0")/.."

logs=${1:-4}
entries=${2:-50000}
lits=${3:-20}
hints=${4:-100}
step=${5:-25}
program=crates/merge_bench/out/merge_bench

if [ ! -x "$program" ]; then
    echo "skipped: $program is not built; run 'rt run' in crates/merge_bench first"
    exit 0
fi

# The milliseconds of the processor that a task takes with a step: the least of five runs.
milliseconds() {
    local TIMEFORMAT='%3U %3S' least=-1 taken
    for _ in 1 2 3 4 5; do
        taken=$({ time "$program" "$1" "$logs" "$entries" "$lits" "$hints" "$2" >/dev/null; } 2>&1 |
            awk '{ printf "%d", 1000 * ($1 + $2) + 0.5 }')
        if [ "$least" -lt 0 ] || [ "$taken" -lt "$least" ]; then
            least=$taken
        fi
    done
    echo "$least"
}

# The most memory that a task has in use, in thousands of bytes; 0 where nothing measures it.
memory() {
    if [ -x /usr/bin/time ]; then
        /usr/bin/time -f %M "$program" "$1" "$logs" "$entries" "$lits" "$hints" "$2" 2>&1 >/dev/null | awk '{ print 1.024 * $1 }'
    else
        echo 0
    fi
}

draw=$(milliseconds draw 1)
write=$(milliseconds write 1)
read=$(milliseconds read 1)
merge=$(milliseconds merge 1)
trim=$(milliseconds trim 1)
needed=$(milliseconds needed 1)
few=$(milliseconds needed "$step")
echo "cores: $(nproc)"
echo "write: $((write - draw)) ms, read: $((read - write)) ms"
echo "merge: $((merge - write)) ms, merge and trim: $((trim - write)) ms"
echo "in one pass: $((needed - write)) ms, with step $step: $((few - write)) ms"
echo "$(memory draw 1) $(memory write 1) $(memory merge 1) $(memory trim 1) $(memory needed 1) $(memory needed "$step")" |
    awk -v count=$((logs * entries)) '{
        printf "logs: %.1f MB, %.1f bytes an entry\n", ($2 - $1) / 1000, 1000 * ($2 - $1) / count
        printf "beyond the logs: merge %.1f MB, merge and trim %.1f MB\n", ($3 - $2) / 1000, ($4 - $2) / 1000
        printf "in one pass: %.1f MB, with the step %.1f MB\n", ($5 - $2) / 1000, ($6 - $2) / 1000
    }'
