// A plain two-watched-literal loop: the yardstick for watch_lists. It makes the same random clauses as
// crates/propagation_bench, does the same rounds, and prints the same counts.
//
//   propagation_yardstick VARIABLES CLAUSES ROUNDS CLAUSES_OF_TWO
//
// The design is that of the proved one: literals of all clauses in one array with a start for each clause,
// the trail's literals in order, level, place and reason of each variable side by side, a value for each packed
// literal and a sign for each variable, lists of watches of 8 bytes with a blocking literal and a mark for clauses
// of two literals, which are not looked at, and a watch that moves is replaced by its list's last one.
#include <algorithm>
#include <cstdint>
#include <cstdio>
#include <cstdlib>
#include <initializer_list>
#include <vector>

using Lit = uint32_t;  // twice the variable, and 1 more where it is negated

struct Numbers {
    uint64_t state = 0x9e3779b97f4a7c15;
    uint32_t next() {
        state *= 0xd1342543de82ef95;
        return uint32_t(state >> 32);
    }
};

struct Watch {
    uint32_t code;  // the clause, and 2^31 more where it has two literals
    Lit blocker;
};

struct Origin {
    uint32_t level, place;
    uint64_t kind, reason;
};

static const uint32_t none = UINT32_MAX, two_mark = 1u << 31;

struct Solver {
    uint32_t vars;
    std::vector<Lit> lits;
    std::vector<uint32_t> starts{0};
    std::vector<std::vector<Watch>> lists;
    std::vector<Lit> trail;
    std::vector<Origin> origins;
    std::vector<uint8_t> truth;
    std::vector<int8_t> signs;
    uint32_t gone = 0, level = 0, free = 1;

    explicit Solver(uint32_t n) : vars(n), lists(2 * n + 2), origins(n + 1), truth(2 * n + 2), signs(n) {
        trail.reserve(n);
    }
    void add(std::initializer_list<Lit> clause) {
        lits.insert(lits.end(), clause);
        starts.push_back(uint32_t(lits.size()));
    }
    void attach() {
        for (uint32_t r = 0; r + 1 < starts.size(); r++) {
            Lit first = lits[starts[r]], second = lits[starts[r] + 1];
            uint32_t code = r + (starts[r + 1] - starts[r] == 2 ? two_mark : 0);
            lists[first].push_back({code, second});
            lists[second].push_back({code, first});
        }
    }
    void push(Lit lit, uint64_t kind, uint64_t reason) {
        origins[lit / 2] = {level, uint32_t(trail.size()), kind, reason};
        trail.push_back(lit);
        truth[lit] = 1;
        signs[lit / 2 - 1] = lit % 2 ? -1 : 1;
    }
    void decide(Lit lit) {
        while (free <= vars && signs[free - 1] != 0) free++;
        level++;
        push(lit, 0, 0);
    }
    void backtrack() {
        while (!trail.empty()) {
            Lit lit = trail.back();
            trail.pop_back();
            truth[lit] = 0;
            signs[lit / 2 - 1] = 0;
            free = std::min(free, lit / 2);
        }
        gone = level = 0;
    }
    uint32_t first_free() {
        while (free <= vars && signs[free - 1] != 0) free++;
        return free;
    }
    // Propagates all entries, and answers a clause that is false, if there is one.
    uint32_t propagate() {
        while (gone < trail.size()) {
            Lit fallen = trail[gone] ^ 1;
            std::vector<Watch> &list = lists[fallen];
            for (size_t at = 0; at < list.size();) {
                Watch watch = list[at];
                if (truth[watch.blocker]) {
                    at++;
                    continue;
                }
                uint32_t r = watch.code % two_mark;
                if (watch.code >= two_mark) {
                    if (truth[watch.blocker ^ 1]) return r;
                    push(watch.blocker, 1, r);
                    at++;
                    continue;
                }
                Lit *clause = &lits[starts[r]];
                if (clause[0] == fallen) std::swap(clause[0], clause[1]);
                Lit first = clause[0];
                if (truth[first]) {
                    list[at].blocker = first;
                    at++;
                    continue;
                }
                uint32_t size = starts[r + 1] - starts[r], other = 2;
                while (other < size && truth[clause[other] ^ 1]) other++;
                if (other < size) {
                    lists[clause[other]].push_back({watch.code, first});
                    std::swap(clause[1], clause[other]);
                    list[at] = list.back();
                    list.pop_back();
                    continue;
                }
                if (truth[first ^ 1]) return r;
                push(first, 1, r);
                at++;
            }
            gone++;
        }
        return none;
    }
};

static Lit literal(uint32_t vars, Numbers &numbers) {
    uint32_t var = 1 + numbers.next() % vars;
    return 2 * var + (numbers.next() % 2 == 0 ? 0 : 1);
}

int main(int count, char **words) {
    if (count < 5) return 1;
    uint32_t vars = std::min(std::max(uint32_t(std::strtoul(words[1], nullptr, 10)), 1u), 1048576u);
    uint32_t threes = std::strtoul(words[2], nullptr, 10), rounds = std::strtoul(words[3], nullptr, 10);
    uint32_t twos = std::strtoul(words[4], nullptr, 10);
    Numbers numbers;
    Solver solver(vars);
    for (uint32_t i = 0; i < threes; i++) {
        Lit a = literal(vars, numbers), b = literal(vars, numbers), c = literal(vars, numbers);
        if (a / 2 != b / 2 && a / 2 != c / 2 && b / 2 != c / 2) solver.add({a, b, c});
    }
    for (uint32_t i = 0; i < twos; i++) {
        Lit a = literal(vars, numbers), b = literal(vars, numbers);
        if (a / 2 != b / 2) solver.add({a, b});
    }
    solver.attach();
    uint64_t decisions = 0, assigned = 0, conflicts = 0;
    for (uint32_t round = 0; round < rounds; round++) {
        for (uint32_t i = 0; i < vars; i++) {
            Lit lit = 0;
            for (int draw = 0; draw < 8 && lit == 0; draw++) {
                Lit drawn = literal(vars, numbers);
                if (!solver.truth[drawn] && !solver.truth[drawn ^ 1]) lit = drawn;
            }
            if (lit == 0) {
                uint32_t var = solver.first_free();
                if (var > vars) break;
                lit = 2 * var;
            }
            solver.decide(lit);
            decisions++;
            if (solver.propagate() != none) {
                conflicts++;
                break;
            }
        }
        assigned += solver.trail.size();
        solver.backtrack();
    }
    std::printf("clauses %zu\ndecisions %lu\nassigned %lu\nconflicts %lu\n", solver.starts.size() - 1,
                (unsigned long)decisions, (unsigned long)assigned, (unsigned long)conflicts);
    return 0;
}
