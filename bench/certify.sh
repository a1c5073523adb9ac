#!/usr/bin/env bash
# What evidence costs: the milliseconds of the processor that the program takes to extract a backbone with one worker, to
# extract it with a proof and a witness in files, and to check those, for each DIMACS file that is named; each the least of
# three runs. The ratios are: what writing both files adds, over the extraction without them; and the check over the
# extraction. At the end their greatest and their geometric means.
#
#   bench/certify.sh FILE ..
#
# It runs the program of crates/backbone_main as its last proof built it.
set -eu
files=()
for file in "$@"; do
    files+=("$(realpath "$file")")
done
cd "$(dirname "$0")/.."

program=crates/backbone_main/out/backbone_main
if [ ! -x "$program" ]; then
    echo "skipped: $program is not built; run ./backbone first"
    exit 0
fi
work=$(mktemp -d)
trap 'rm -rf "$work"' EXIT

# The least milliseconds of three runs of the program on these words; its output goes to a file.
least() {
    local TIMEFORMAT='%3U %3S' least=-1 taken
    for _ in 1 2 3; do
        taken=$({ time "$program" "$@" >"$work/answer" 2>/dev/null || true; } 2>&1 | awk '{ printf "%d", 1000 * ($1 + $2) + 0.5 }')
        if [ "$least" -lt 0 ] || [ "$taken" -lt "$least" ]; then
            least=$taken
        fi
    done
    echo "$least"
}

extract=(extract --workers 1 --budget 1099511627776)
for file in "${files[@]}"; do
    plain=$(least "${extract[@]}" "$file")
    named=$(least "${extract[@]}" --proof "$work/proof" --witness "$work/witness" "$file")
    cp "$work/answer" "$work/judged"
    check=$(least check "$file" "$work/judged" "$work/proof" "$work/witness")
    echo "$(basename "$file") $plain $named $check $(tr ' ' '-' <"$work/answer") $(du -cb "$work/proof" "$work/witness" | awk 'END { print $1 }')"
done | awk '
    function larger(a, b) { return a > b ? a : b }
    BEGIN { printf "%-20s %10s %10s %10s %10s %8s %8s  %s\n", "file", "extract", "with files", "check", "bytes", "writing", "check", "verdict" }
    {
        writing = ($3 - $2) / larger($2, 1); check = $4 / larger($3, 1)
        printf "%-20s %10d %10d %10d %10d %8.3f %8.3f  %s\n", $1, $2, $3, $4, $6, writing, check, $5
        most = larger(most, writing); most_check = larger(most_check, check)
        sum += log(larger(check, 0.001)); count++
    }
    END { if (count) printf "writing at most %.3f, check at most %.3f, geometric mean %.3f\n", most, most_check, exp(sum / count) }'
