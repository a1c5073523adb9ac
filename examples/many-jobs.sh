#!/usr/bin/env bash
# many-jobs.sh FORMULA JOBS FOLDER [OPTIONS OF parallel ..]
# many-jobs.sh --split FORMULA JOBS FOLDER    writes the jobs' texts alone, for a batch system
# many-jobs.sh --job FOLDER K                 runs the job K of a folder
#
# Splits a question into jobs by the variables that it asks about, runs them by GNU parallel, checks what each of them
# certifies, and prints the answer to the whole question. It ends with the program's status: 10 where the formula has a
# model, and its backbone was printed; 20 where it has none.
#
# Each job gets the formula with a 'c p show' line of its own, and leaves in FOLDER its text, answer, proof, witness, what
# 'backbone check' says of them, and its status: job-K.cnf, .answer, .proof, .witness, .verdict, .status. A job that
# failed or was cut off is named on standard error, and the script ends with that job's status, or with 1 where it left none
# or wasn't verified. The same call again runs just the jobs that are missing.
#
# Over several machines: --sshlogin HOST,HOST, where all of them have FOLDER, this script and the program at the same paths.
# The environment has BACKBONE, the program (backbone), and OPTIONS, options of its command extract (--workers 1).
#
# It needs bash, awk, sort, sha256sum and GNU parallel (Debian's package parallel).
set -uo pipefail

backbone=${BACKBONE:-backbone}
options=${OPTIONS:---workers 1}

say() {
    printf 'many-jobs: %s\n' "$1" >&2
}

# One job: its evidence stands whole before its verdict, and its verdict before its status.
run_job() {
    local job=$1/job-$2 status
    rm -f "$job".{answer,proof,witness,verdict,status}
    # shellcheck disable=SC2086
    "$backbone" extract $options --proof "$job.proof" --witness "$job.witness" "$job.cnf" >"$job.answer"
    status=$?
    if [ $status = 10 ] || [ $status = 20 ]; then
        "$backbone" check "$job.cnf" "$job.answer" "$job.proof" "$job.witness" >"$job.verdict" || status=1
    fi
    echo $status >"$job.status"
}

# Whether a job has ended with a verified answer.
is_done() {
    case $(cat "$1/job-$2.status" 2>/dev/null) in 10 | 20) true ;; *) false ;; esac
}

if [ "${1-}" = --job ] && [ $# -eq 3 ]; then
    run_job "$2" "$3"
    is_done "$2" "$3"
    exit
fi
split=false
if [ "${1-}" = --split ]; then
    split=true
    shift
fi
if [ $# -lt 3 ] || [[ ! $2 =~ ^[0-9]+$ ]]; then
    say 'usage: many-jobs.sh FORMULA JOBS FOLDER [OPTIONS OF parallel ..]'
    exit 64
fi
formula=$1 jobs=$((10#$2)) folder=$3
shift 3

# The formula has to read: a search that may learn one clause says so, with the program's own note and status.
"$backbone" extract --workers 1 --budget 1 "$formula" >/dev/null
status=$?
case $status in 10 | 20 | 30 | 31) ;; *) exit $status ;; esac

# The variables that are asked for: those of the show lines, or all.
shown=$(awk '
    /^[ \t\r]*%/ && header { exit }
    !header && $1 == "p" { header = 1; vars = $3 + 0; next }
    header && $1 == "c" && $2 == "p" && $3 == "show" { lines = 1; for (i = 4; i <= NF; i++) if ($i + 0) asked[$i + 0] }
    END { for (v = 1; v <= vars; v++) if (!lines || v in asked) print v }' "$formula")
count=$(printf '%s' "$shown" | grep -c .)
if [ "$jobs" -lt 1 ] || [ "$jobs" -gt "$count" ]; then
    say "JOBS has to be from 1 to the number of variables asked for, which is $count"
    exit 64
fi

# A folder belongs to one formula and one number of jobs.
mkdir -p "$folder" || exit 62
named=$folder
folder=$(cd "$folder" && pwd)
question="$(sha256sum <"$formula" | cut -d ' ' -f 1) $jobs"
if [ -e "$folder/question" ] && [ "$(cat "$folder/question")" != "$question" ]; then
    say "$folder holds the jobs of another question"
    exit 64
fi
if [ ! -e "$folder/question" ]; then
    for ((k = 1; k <= jobs; k++)); do
        part=$(printf '%s\n' "$shown" | awk -v k="$k" -v jobs="$jobs" -v count="$count" '
            NR > int((k - 1) * count / jobs) && NR <= int(k * count / jobs)' | tr '\n' ' ')
        awk -v part="$part" '
            /^[ \t\r]*%/ && header { exit }
            header && $1 == "c" && $2 == "p" && $3 == "show" { next }
            { print }
            !header && $1 == "p" { header = 1; print "c p show " part "0" }' "$formula" >"$folder/job-$k.cnf" || exit 61
    done
    echo "$question" >"$folder/question"
fi
$split && exit 0

missing=()
for ((k = 1; k <= jobs; k++)); do is_done "$folder" $k || missing+=("$k"); done
if [ ${#missing[@]} -gt 0 ]; then
    self=$(readlink -f "${BASH_SOURCE[0]}")
    parallel "$@" env BACKBONE="$backbone" OPTIONS="'$options'" bash "$self" --job "$folder" {} ::: "${missing[@]}"
fi

# Jobs that are still missing are named, and the first one's status is the script's.
failed=0
for ((k = 1; k <= jobs; k++)); do
    is_done "$folder" $k && continue
    status=$(cat "$folder/job-$k.status" 2>/dev/null || echo 1)
    say "job $k of $jobs failed with status $status; the same call runs it again: $named/job-$k.cnf"
    [ "$failed" = 0 ] && failed=$status
done
[ "$failed" = 0 ] || exit "$failed"

# The whole answer: no model, or the lines of all jobs by variable.
if [ "$(cat "$folder/job-1.status")" = 20 ]; then
    cat "$folder/job-1.answer"
    exit 20
fi
echo 's SATISFIABLE'
for ((k = 1; k <= jobs; k++)); do grep '^b -*[1-9]' "$folder/job-$k.answer"; done |
    awk '{ v = $2 < 0 ? -$2 : $2; print v, $0 }' | sort -n -k 1,1 | cut -d ' ' -f 2-
echo 'b 0'
exit 10
