// A generator of LRAT proofs, and a plain checker of them: the yardstick for lrat_checker.
//
//   lrat_yardstick make LINES VARS SEED FORMULA PROOF   writes a formula and a proof over it
//   lrat_yardstick check FORMULA PROOF                  checks it, and prints lines, hints and seconds
//
// The checker is of the same design as the proved one: an ordered map from ids to clauses, a table of
// false literals, and a list of the true ones, by which the table is cleared.
#include <chrono>
#include <cstdint>
#include <cstdio>
#include <cstdlib>
#include <fstream>
#include <map>
#include <random>
#include <sstream>
#include <string>
#include <vector>

using Clause = std::vector<int>;

static size_t code(int lit) { return 2 * size_t(std::abs(lit)) + (lit < 0); }

struct Checker {
    std::map<uint64_t, Clause> known;
    std::vector<char> falses;
    std::vector<int> trues;
    int vars = 0;
    uint64_t top = 0, hints_seen = 0;

    bool make_true(int lit) {
        trues.push_back(lit);
        falses[code(-lit)] = 1;
        return true;
    }
    bool shows(const Clause &clause, const std::vector<uint64_t> &hints) {
        for (int lit : trues) falses[code(-lit)] = 0;
        trues.clear();
        for (int lit : clause) {
            if (falses[code(-lit)]) return true;
            make_true(-lit);
        }
        for (uint64_t hint : hints) {
            hints_seen++;
            auto found = known.find(hint);
            if (found == known.end()) return false;
            int open = 0;
            for (int lit : found->second) {
                if (falses[code(lit)]) continue;
                if (open != 0 && open != lit) return false;
                open = lit;
            }
            if (open == 0) return true;
            make_true(open);
        }
        return false;
    }
};

static int make(size_t lines, int vars, uint64_t seed, const char *formula, const char *proof) {
    std::mt19937_64 random(seed);
    std::vector<Clause> clauses(1);
    std::vector<std::vector<size_t>> having(2 * size_t(vars) + 2);
    Checker checker;
    checker.falses.resize(2 * size_t(vars) + 2);
    auto add = [&](const Clause &clause) {
        checker.known[clauses.size()] = clause;
        if (clause.size() <= 6)
            for (int lit : clause) having[code(lit)].push_back(clauses.size());
        clauses.push_back(clause);
    };
    for (int i = 0; i < 4 * vars; i++) {
        Clause clause;
        while (clause.size() < 3) {
            int lit = int(random() % vars) + 1;
            if (random() % 2) lit = -lit;
            bool fresh = true;
            for (int other : clause) fresh &= std::abs(other) != std::abs(lit);
            if (fresh) clause.push_back(lit);
        }
        add(clause);
    }
    size_t inputs = clauses.size() - 1;
    std::ofstream text(formula);
    text << "p cnf " << vars << ' ' << inputs << '\n';
    for (size_t i = 1; i <= inputs; i++) {
        for (int lit : clauses[i]) text << lit << ' ';
        text << "0\n";
    }
    std::ofstream out(proof);
    std::vector<char> in(2 * size_t(vars) + 2);
    for (size_t made = 0; made < lines;) {
        // a chain of resolutions; its clauses, the last first, are the hints
        std::vector<size_t> chain{1 + random() % inputs};
        Clause current = clauses[chain[0]];
        for (int step = 0; step < 8; step++) {
            int pivot = current[random() % current.size()];
            const auto &sides = having[code(-pivot)];
            if (sides.empty()) break;
            size_t side = sides[random() % sides.size()];
            for (int lit : current) in[code(lit)] = 1;
            bool fits = true;
            size_t more = 0;
            for (int lit : clauses[side]) {
                if (lit == -pivot) continue;
                fits &= !in[code(-lit)];
                more += !in[code(lit)];
            }
            fits &= current.size() - 1 + more <= 20 && current.size() - 1 + more > 0;
            for (int lit : current) in[code(lit)] = 0;
            if (!fits) continue;
            Clause next;
            for (int lit : current)
                if (lit != pivot) next.push_back(lit), in[code(lit)] = 1;
            for (int lit : clauses[side])
                if (lit != -pivot && !in[code(lit)]) next.push_back(lit);
            for (int lit : current) in[code(lit)] = 0;
            current = next;
            chain.push_back(side);
        }
        if (chain.size() < 3 || !checker.shows(current, {chain.rbegin(), chain.rend()})) continue;
        out << clauses.size() << ' ';
        for (int lit : current) out << lit << ' ';
        out << "0 ";
        for (size_t i = chain.size(); i-- > 0;) out << chain[i] << ' ';
        out << "0\n";
        add(current);
        made++;
    }
    return 0;
}

static int check(const char *formula, const char *proof) {
    std::ifstream text(formula);
    std::string word;
    size_t count;
    Checker checker;
    text >> word >> word >> checker.vars >> count;
    checker.falses.resize(2 * size_t(checker.vars) + 2);
    for (size_t i = 1; i <= count; i++) {
        Clause clause;
        for (int lit; text >> lit && lit != 0;) clause.push_back(lit);
        checker.known[i] = clause;
    }
    checker.top = count;
    FILE *file = std::fopen(proof, "rb");
    std::vector<char> bytes;
    std::fseek(file, 0, SEEK_END);
    bytes.resize(size_t(std::ftell(file)) + 1);
    std::rewind(file);
    if (std::fread(bytes.data(), 1, bytes.size() - 1, file) != bytes.size() - 1) return 2;
    auto start = std::chrono::steady_clock::now();
    char *at = bytes.data();
    size_t lines = 0;
    while (*at) {
        uint64_t id = std::strtoull(at, &at, 10);
        while (*at == ' ') at++;
        if (*at == 'd') {
            at++;
            for (uint64_t gone; (gone = std::strtoull(at, &at, 10)) != 0;) checker.known.erase(gone);
        } else {
            Clause clause;
            for (long lit; (lit = std::strtol(at, &at, 10)) != 0;) clause.push_back(int(lit));
            std::vector<uint64_t> hints;
            for (uint64_t hint; (hint = std::strtoull(at, &at, 10)) != 0;) hints.push_back(hint);
            if (id <= checker.top || !checker.shows(clause, hints)) {
                std::printf("refused at line %zu\n", lines + 1);
                return 1;
            }
            checker.known[id] = clause;
            checker.top = id;
        }
        while (*at == '\n') at++;
        lines++;
    }
    double seconds = std::chrono::duration<double>(std::chrono::steady_clock::now() - start).count();
    std::printf("%zu lines, %llu hints, %.3f s\n", lines, (unsigned long long)checker.hints_seen, seconds);
    return 0;
}

int main(int count, char **words) {
    std::string command = count > 1 ? words[1] : "";
    if (command == "make" && count == 7)
        return make(std::strtoull(words[2], nullptr, 10), std::atoi(words[3]), std::strtoull(words[4], nullptr, 10), words[5], words[6]);
    if (command == "check" && count == 4) return check(words[2], words[3]);
    std::fprintf(stderr, "see the head of this file\n");
    return 2;
}
