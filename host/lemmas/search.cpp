#include "search.hpp"

#include <algorithm>
#include <cstdlib>

namespace lemmas {

namespace {

std::size_t index(int literal) {
    return literal > 0 ? 2 * std::size_t(literal) : 2 * std::size_t(-literal) + 1;
}

std::size_t variable(int literal) { return std::size_t(std::abs(literal)); }

}  // namespace

Search::Search(int variables, const std::vector<Clause>& clauses, std::vector<unsigned> under)
    : given_(clauses.size()),
      where_(2 * std::size_t(variables) + 2),
      values_(std::size_t(variables) + 1, 0),
      reasons_(std::size_t(variables) + 1, -1),
      levels_(std::size_t(variables) + 1, 0),
      under_(std::move(under)) {
    for (const Clause& clause : clauses) keep(clause);
}

void Search::keep(const Clause& clause) {
    for (int literal : clause) where_[index(literal)].push_back(int(clauses_.size()));
    clauses_.push_back(clause);
}

int Search::value(int literal) const {
    const int v = values_[variable(literal)];
    return literal > 0 ? v : -v;
}

void Search::assign(int literal, int reason) {
    values_[variable(literal)] = literal > 0 ? 1 : -1;
    reasons_[variable(literal)] = reason;
    levels_[variable(literal)] = choices_.size();
    trail_.push_back(literal);
}

// Sets all that follows; the clause of a conflict, or -1.
int Search::propagate() {
    while (next_ < trail_.size()) {
        const int done = trail_[next_++];
        for (int c : where_[index(-done)]) {
            int open = 0;
            int count = 0;  // literals that are not false, 2 for more or for a true one
            for (int literal : clauses_[std::size_t(c)]) {
                const int v = value(literal);
                if (v < 0) continue;
                count = v > 0 ? 2 : count + 1;
                if (count > 1) break;
                open = literal;
            }
            if (count == 0) return c;
            if (count == 1) assign(open, c);
        }
    }
    return -1;
}

// Takes back all but the first so many choices.
void Search::go_back(std::size_t level) {
    const std::size_t size = choices_[level];
    while (trail_.size() > size) {
        values_[variable(trail_.back())] = 0;
        trail_.pop_back();
    }
    choices_.resize(level);
    next_ = size;
}

// How many literals a choice sets.
std::size_t Search::count_of(int literal) {
    const std::size_t before = trail_.size();
    choices_.push_back(before);
    assign(literal, -1);
    const bool conflict = propagate() >= 0;
    const std::size_t count = conflict ? 4 * values_.size() : trail_.size() - before;
    go_back(choices_.size() - 1);
    return count;
}

// A literal that is not set yet; 0 where all are.
int Search::choose() {
    std::vector<std::pair<double, int>> found;
    for (int v = 1; v < int(values_.size()); v++) {
        if (value(v) != 0) continue;
        const std::size_t yes = count_of(v);
        const std::size_t no = count_of(-v);
        const double less = double(std::min(yes, no));
        const double more = double(std::max(yes, no));
        // the two ways to weigh the cases are about as good, each for some clauses
        const double score = seed_ % 2 == 0 ? less * more : less * more * more;
        found.push_back({-score, yes >= no ? v : -v});
    }
    if (found.empty()) return 0;
    const std::size_t best = std::min<std::size_t>(1 + seed_ % 6, found.size());
    std::partial_sort(found.begin(), found.begin() + std::ptrdiff_t(best), found.end());
    chance_ = chance_ * 1664525u + 1013904223u;
    return found[(chance_ >> 16) % best].second;
}

// Whether a literal's reason names nothing but what the clause has already.
bool Search::implied(std::size_t v, const std::vector<bool>& seen) const {
    if (reasons_[v] < 0) return false;
    for (int literal : clauses_[std::size_t(reasons_[v])]) {
        const std::size_t w = variable(literal);
        if (w != v && !seen[w] && levels_[w] != 0) return false;
    }
    return true;
}

// The clause that a conflict teaches. Going back along the trail, literals of the
// last choice's level are resolved away until one is left, which comes first; so
// are those that hold without any choice, and those that the others imply.
Search::Learned Search::learn(int conflict) {
    Learned result;
    std::vector<bool> seen(values_.size(), false);
    const std::size_t level = choices_.size();
    std::size_t open = 0;  // literals of the last level that are to be resolved
    const auto resolve = [&](int c) {
        result.from.push_back(c);
        result.under |= under_[std::size_t(c)];
        for (int literal : clauses_[std::size_t(c)]) {
            const std::size_t v = variable(literal);
            if (!seen[v] && levels_[v] == level) open++;
            seen[v] = true;
        }
    };
    resolve(conflict);
    for (std::size_t i = trail_.size(); i-- > 0;) {
        const std::size_t v = variable(trail_[i]);
        if (!seen[v]) continue;
        const bool last = level > 0 && levels_[v] == level;
        if (last ? open > 1 : levels_[v] == 0 || implied(v, seen)) {
            resolve(reasons_[v]);
        } else {
            result.clause.push_back(-trail_[i]);
        }
        if (last) open--;
    }
    return result;
}

// Keeps the learned clauses that the last one, the empty clause, needs.
void Search::collect(const Learned& last) {
    std::vector<bool> needed(learned_.size(), false);
    const auto need = [&](const Learned& learned) {
        lines_.push_back({learned.clause, learned.under, learned.from.size()});
        for (int c : learned.from) {
            if (std::size_t(c) >= given_) {
                needed[std::size_t(c) - given_] = true;
            } else {
                used_[std::size_t(c)] = true;
            }
        }
    };
    used_.assign(given_, false);
    lines_.clear();
    need(last);
    for (std::size_t i = learned_.size(); i-- > 0;) {
        if (needed[i]) need(learned_[i]);
    }
    std::reverse(lines_.begin(), lines_.end());
}

// Forgets what an earlier run has set and learned.
void Search::start(unsigned seed) {
    seed_ = seed;
    chance_ = seed;
    if (!choices_.empty()) go_back(0);
    for (int literal : trail_) values_[variable(literal)] = 0;
    trail_.clear();
    next_ = 0;
    for (auto& list : where_) {
        while (!list.empty() && std::size_t(list.back()) >= given_) list.pop_back();
    }
    clauses_.resize(given_);
    under_.resize(given_);
    learned_.clear();
    for (std::size_t c = 0; c < given_; c++) {
        if (clauses_[c].size() == 1 && value(clauses_[c][0]) == 0) assign(clauses_[c][0], int(c));
    }
}

bool Search::refute(std::size_t conflicts, unsigned seed) {
    start(seed);
    for (;;) {
        const int conflict = propagate();
        if (conflict < 0) {
            const int literal = choose();
            if (literal == 0) return false;
            choices_.push_back(trail_.size());
            assign(literal, -1);
            continue;
        }
        const Learned learned = learn(conflict);
        if (choices_.empty()) {
            collect(learned);
            return true;
        }
        if (learned_.size() >= conflicts) return false;
        std::size_t level = 0;
        for (std::size_t i = 1; i < learned.clause.size(); i++)
            level = std::max(level, levels_[variable(learned.clause[i])]);
        go_back(level);
        keep(learned.clause);
        under_.push_back(learned.under);
        learned_.push_back(learned);
        assign(learned.clause[0], int(clauses_.size()) - 1);
    }
}

}  // namespace lemmas
