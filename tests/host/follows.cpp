// Whether each clause of a derivation follows by unit propagation from the
// clauses of a file and those before it.
//
//   follows CLAUSES DERIVATION
//
// The converter looks only at what a refutation needs, and only where there is
// one. This looks at every clause that host/lemmas derives, also for a request
// that some network satisfies. Prints the number of clauses; exit status 0 where
// all follow, 1 with the first that does not, 2 for wrong words or files.
#include <cstdio>
#include <cstdlib>
#include <fstream>
#include <sstream>
#include <string>
#include <vector>

namespace {

using Clause = std::vector<int>;

class Propagation {
  public:
    void add(const Clause& clause) {
        const int index = int(clauses_.size());
        clauses_.push_back(clause);
        for (int literal : clause) {
            if (std::size_t(std::abs(literal)) >= values_.size()) {
                values_.resize(std::size_t(std::abs(literal)) + 1, 0);
                watches_.resize(2 * values_.size());
            }
        }
        if (clause.size() == 1) units_.push_back(clause[0]);
        if (clause.size() < 2) return;
        watches(clause[0]).push_back(index);
        watches(clause[1]).push_back(index);
    }

    bool follows(const Clause& clause) {
        bool conflict = false;
        for (int literal : clause) conflict = conflict || !set(-literal);
        for (std::size_t i = 0; i < units_.size() && !conflict; i++) conflict = !set(units_[i]);
        for (std::size_t next = 0; next < trail_.size() && !conflict; next++) {
            conflict = !visit(-trail_[next]);
        }
        for (int literal : trail_) values_[std::size_t(std::abs(literal))] = 0;
        trail_.clear();
        return conflict;
    }

  private:
    std::vector<int>& watches(int literal) {
        return watches_[2 * std::size_t(std::abs(literal)) + (literal < 0 ? 1 : 0)];
    }
    int value(int literal) const {
        const int v = values_[std::size_t(std::abs(literal))];
        return literal > 0 ? v : -v;
    }
    // False where the literal is false already.
    bool set(int literal) {
        if (value(literal) != 0) return value(literal) > 0;
        values_[std::size_t(std::abs(literal))] = literal > 0 ? 1 : -1;
        trail_.push_back(literal);
        return true;
    }
    // A literal has become false: its clauses watch another, or are unit.
    bool visit(int literal) {
        std::vector<int> list;
        list.swap(watches(literal));
        bool good = true;
        for (std::size_t i = 0; i < list.size(); i++) {
            Clause& clause = clauses_[std::size_t(list[i])];
            if (clause[0] == literal) std::swap(clause[0], clause[1]);
            std::size_t free = 2;
            while (free < clause.size() && value(clause[free]) < 0) free++;
            if (good && value(clause[0]) <= 0 && free < clause.size()) {
                std::swap(clause[1], clause[free]);
                watches(clause[1]).push_back(list[i]);
                continue;
            }
            watches(literal).push_back(list[i]);
            good = good && set(clause[0]);
        }
        return good;
    }

    std::vector<Clause> clauses_;
    std::vector<std::vector<int>> watches_;
    std::vector<int> units_;
    std::vector<signed char> values_;
    std::vector<int> trail_;
};

bool next_clause(std::ifstream& file, Clause& clause) {
    clause.clear();
    std::string line;
    while (std::getline(file, line)) {
        if (line.empty() || line[0] == 'p' || line[0] == 'c') continue;
        std::istringstream words(line);
        for (int literal; words >> literal && literal != 0;) clause.push_back(literal);
        return true;
    }
    return false;
}

}  // namespace

int main(int argc, char** argv) {
    if (argc != 3) return 2;
    std::ifstream clauses(argv[1]);
    std::ifstream derivation(argv[2]);
    if (!clauses || !derivation) return 2;
    Propagation propagation;
    Clause clause;
    while (next_clause(clauses, clause)) propagation.add(clause);
    std::size_t count = 0;
    while (next_clause(derivation, clause)) {
        count++;
        if (!propagation.follows(clause)) {
            std::printf("clause %zu does not follow:", count);
            for (int literal : clause) std::printf(" %d", literal);
            std::printf(" 0\n");
            return 1;
        }
        propagation.add(clause);
    }
    std::printf("%zu\n", count);
}
