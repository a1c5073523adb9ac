#!/usr/bin/env python3
"""lrat_check.py FORMULA REFUTATION

Checks that the refutation, in LRAT, shows that the formula, in DIMACS CNF, has no model: prints `refuted` and ends with
0, or says what is wrong and ends with 1. A second opinion, written from the format alone (Cruz-Filipe, Heule, Hunt,
Kaufmann and Schneider-Kamp, 2017), without the parts of LRAT that go beyond reverse unit propagation.
"""
import sys


def clauses_of(text):
    """The formula's clauses by their ids, from 1."""
    lines = [line for line in text.split("\n") if not line.lstrip().startswith("c")]
    numbers = [int(word) for word in " ".join(lines).split("%")[0].split()[4:]]
    clauses, clause = {}, []
    for number in numbers:
        if number:
            clause.append(number)
        else:
            clauses[len(clauses) + 1] = frozenset(clause)
            clause = []
    return clauses


def follows(clause, hints, clauses):
    """Whether the clause follows from those of the hints by reverse unit propagation."""
    false = set(clause)
    for hint in hints:
        rest = [lit for lit in clauses[hint] if lit not in false]
        if not rest:
            return True
        if len(rest) > 1:
            return False
        false.add(-rest[0])
    return False


def main(formula, refutation):
    clauses = clauses_of(open(formula).read())
    for place, line in enumerate(open(refutation), 1):
        words = line.split()
        if not words or words[0] == "c":
            continue
        if words[1] == "d":
            for word in words[2:-1]:
                del clauses[int(word)]
            continue
        numbers = [int(word) for word in words[1:]]
        end = numbers.index(0)
        clause, hints = numbers[:end], numbers[end + 1:-1]
        if not follows(clause, hints, clauses):
            sys.exit("line %d doesn't follow" % place)
        if not clause:
            print("refuted")
            return
        clauses[int(words[0])] = frozenset(clause)
    sys.exit("there is no empty clause")


if __name__ == "__main__":
    main(*sys.argv[1:])
