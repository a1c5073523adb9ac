#!/usr/bin/env bash
# as-refutation.sh FORMULA ANSWER PROOF REFUTED REFUTATION
#
# Turns an answer with a backbone and its proof into a formula without a model and a refutation of it, which any LRAT
# checker judges: REFUTED is the formula with one clause more, its first, which says that some literal of the answer is
# false, and REFUTATION is the proof with all ids raised by one, and one line more. It is refuted exactly where the
# formula entails all of the answer's literals. That the others aren't forced is shown by the witness alone.
set -euo pipefail

if [ $# -ne 5 ]; then
    echo 'usage: as-refutation.sh FORMULA ANSWER PROOF REFUTED REFUTATION' >&2
    exit 64
fi

awk -v answer="$2" -v proof="$3" -v refuted="$4" -v refutation="$5" '
    BEGIN {
        while ((getline <answer) > 0) if ($1 == "b" && $2 != 0) lits[++count] = $2
        if (!count) { print "no literal is printed in " answer >"/dev/stderr"; exit 1 }
    }
    /^[ \t\r]*%/ && header { exit }
    $1 == "c" { next }
    !header && $1 == "p" {
        header = 1
        printf "p cnf %d %d\n", $3, $4 + 1 >refuted
        for (i = 1; i <= count; i++) printf "%d ", -lits[i] >refuted
        print 0 >refuted
        id = 2
        next
    }
    {
        print >refuted
        for (i = 1; i <= NF; i++)
            if ($i + 0) { size++; lit = $i + 0 }
            else { if (size == 1 && !(lit in unit)) unit[lit] = id; size = 0; id++ }
    }
    END {
        if (!header) exit 1
        while ((getline <proof) > 0) {
            if ($1 == "c" || NF == 0) continue
            $1 = $1 + 1
            deletion = $2 == "d"
            hints = deletion
            for (i = deletion ? 3 : 2; i <= NF; i++)
                if ($i == 0) hints = 1
                else if (hints) $i = $i + 1
            print >refutation
            id = $1
            if (!deletion && $3 == 0 && !($2 in unit)) unit[$2] = $1
        }
        printf "%d 0", id + 1 >refutation
        for (i = 1; i <= count; i++) printf " %d", unit[lits[i]] >refutation
        print " 1 0" >refutation
    }' "$1"
