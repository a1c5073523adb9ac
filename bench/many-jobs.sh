#!/usr/bin/env bash
# Whether many jobs give the answer of one: for each DIMACS file that is named, examples/many-jobs.sh with four jobs, of which
# the second is killed in the middle; then the same call again, which has to run that one alone; and then the united answer
# is compared with the program's own.
#
#   bench/many-jobs.sh FILE ..
#
# It runs the program of crates/backbone_main as its last proof built it, and needs GNU parallel. It ends with 1 where
# something differs.
set -u
cd "$(dirname "$0")/.." || exit

program=$PWD/crates/backbone_main/out/backbone_main
if [ ! -x "$program" ] || ! command -v parallel >/dev/null; then
    echo "skipped: it needs the built program ($program) and GNU parallel"
    exit 0
fi
work=$(mktemp -d)
trap 'rm -rf "$work"' EXIT

# The program, whose run over the second job's text is killed where a file asks for it.
cat >"$work/killing" <<END
#!/usr/bin/env bash
if [ "\$1" = extract ] && [[ "\${!#}" == */job-2.cnf ]] && rm "$work/kill" 2>/dev/null; then
    exec timeout -s KILL 0.01 "$program" "\$@"
fi
exec "$program" "\$@"
END
chmod +x "$work/killing"

wrong=0
expect() {
    [ "$2" = "$3" ] || { echo "  $1: $2, not $3"; wrong=1; }
}

for file in "$@"; do
    basename "$file"
    jobs=$work/jobs
    rm -rf "$jobs"
    touch "$work/kill"
    BACKBONE=$work/killing bash examples/many-jobs.sh "$file" 4 "$jobs" >"$work/united" 2>"$work/notes"
    expect 'status with a killed job' $? 137
    expect 'jobs named' "$(grep -c '^many-jobs: job 2 of 4 failed' "$work/notes")" 1
    before=$(stat -c %Y.%y "$jobs"/job-[134].*)
    BACKBONE=$program bash examples/many-jobs.sh "$file" 4 "$jobs" >"$work/united" 2>"$work/notes"
    status=$?
    expect 'other jobs' "$(stat -c %Y.%y "$jobs"/job-[134].*)" "$before"
    "$program" extract --workers 4 "$file" >"$work/plain"
    expect 'status' $status $?
    if cmp -s "$work/united" "$work/plain"; then
        echo '  the same answer'
    else
        echo '  another answer'
        wrong=1
    fi
done
exit $wrong
