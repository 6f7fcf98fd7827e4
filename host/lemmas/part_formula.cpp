#include "part_formula.hpp"

#include <algorithm>
#include <cstdlib>
#include <tuple>

namespace lemmas {

bool PartFormula::Variable::operator<(const Variable& v) const {
    return std::tie(kind, row, step, a, b) < std::tie(v.kind, v.row, v.step, v.a, v.b);
}

// Opposites come last, and name no variable that is not there: with all of them or
// some, the variables have the same numbers.
PartFormula::PartFormula(const Formula& formula, const Essential& essential,
                         const std::vector<int>& literals, int spare, bool all_opposites)
    : f_(formula), essential_(essential), literals_(literals) {
    for (int y = 0; y < f_.rows(); y++) {
        if (f_.on(y) && keeps_to(y, spare)) on_.push_back(y);
    }
    add_joins();
    for (int y : on_) add_on_row(y);
    for (int x = 0; x < f_.rows(); x++) {
        if (f_.off(x)) add_off_row(x);
    }
    add_cuts();
    add_opposites(all_opposites);
}

Part PartFormula::part_of(const Search& search) const {
    Part part;
    part.literals = literals_;
    part.lines = search.lines();
    for (const auto& [c, side] : cuts_) {
        if (search.uses(c) || search.uses(c + 1)) part.cuts.insert(side);
    }
    for (const auto& [c, opposite] : opposites_) {
        if (search.uses(c) || search.uses(c + 1)) part.opposites.push_back(opposite);
    }
    return part;
}

int PartFormula::switches(const Line& line) const {
    unsigned set = carriers_of(line.under);
    for (int literal : line.clause) {
        const Variable& v = variables_[std::size_t(std::abs(literal)) - 1];
        for (int terminal : {v.a, v.b}) {
            if (terminal > 0 && terminal < sink()) set |= carrier_bit(Formula::switch_of(terminal));
        }
    }
    return __builtin_popcount(set);
}

int PartFormula::placed(const std::vector<int>& chosen, int literal) const {
    const Variable& v = variables_[std::size_t(std::abs(literal)) - 1];
    const auto terminal = [&](int i) {
        if (i == 0) return 0;
        if (i == sink()) return f_.sink();
        const int s = chosen[std::size_t(Formula::switch_of(i))];
        return i % 2 == 1 ? Formula::first_end(s) : Formula::second_end(s);
    };
    int variable = 0;
    switch (v.kind) {
        case Kind::joined:
            variable = f_.X(terminal(v.a), terminal(v.b));
            break;
        case Kind::enters:
            variable = f_.W(v.row, v.step, terminal(v.a));
            break;
        case Kind::stopped:
            variable = f_.Z(v.row, v.step);
            break;
        case Kind::side:
            variable = f_.S(v.row, terminal(v.a));
            break;
    }
    return literal > 0 ? variable : -variable;
}

bool PartFormula::taken(int literal) const {
    return std::find(literals_.begin(), literals_.end(), literal) != literals_.end();
}

int PartFormula::carrier(int literal) const {
    return int(std::find(literals_.begin(), literals_.end(), literal) - literals_.begin());
}

bool PartFormula::keeps_to(int y, int spare) const {
    if (spare >= 0 && f_.value(y, spare)) return false;
    for (const auto& entry : essential_) {
        if (f_.value(y, entry.first) && !taken(entry.first)) return false;
    }
    return true;
}

int PartFormula::number(const Variable& variable) {
    const auto found = numbers_.find(variable);
    if (found != numbers_.end()) return found->second;
    variables_.push_back(variable);
    return numbers_[variable] = int(variables_.size());
}

int PartFormula::X(int i, int j) {
    return number({Kind::joined, 0, 0, std::min(i, j), std::max(i, j)});
}

void PartFormula::add(const Clause& clause, unsigned under) {
    clauses_.push_back(clause);
    under_.push_back(under);
}

void PartFormula::differ(int a, int b, unsigned under) {
    add({a, b}, under);
    add({-a, -b}, under);
}

void PartFormula::add_joins() {
    for (int i = 0; i <= sink(); i++) {
        for (int j = i + 1; j <= sink(); j++) {
            for (int k = j + 1; k <= sink(); k++) {
                const int a = X(i, j), b = X(j, k), c = X(i, k);
                add({-a, -b, c});
                add({-a, -c, b});
                add({-b, -c, a});
            }
        }
    }
}

void PartFormula::add_on_row(int y) {
    // a step is over one of the carriers that are closed, all others being open
    std::vector<int> closed;
    unsigned under = row_bit(y);
    for (int e = 1; e <= ends(); e++) {
        if (!f_.value(y, literal_at(e))) continue;
        closed.push_back(e);
        under |= carrier_bit(Formula::switch_of(e));
    }
    const int last = f_.steps();
    for (int t = 1; t <= last; t++) {
        Clause step;
        for (int e : closed) step.push_back(W(y, t, e));
        step.push_back(Z(y, t));
        add(step, under);
    }
    add({-Z(y, 1), X(0, sink())});
    for (int e : closed) {
        const int end = Formula::other(e);
        add({-W(y, 1, e), X(0, e)});
        add({-W(y, last, e), X(end, sink())});
        for (int t = 1; t < last; t++) {
            add({-W(y, t, e), -Z(y, t + 1), X(end, sink())});
            for (int g : closed) {
                if (g != end) add({-W(y, t, e), -W(y, t + 1, g), X(end, g)});
            }
        }
    }
}

void PartFormula::add_off_row(int x) {
    add({-S(x, 0)});
    add({S(x, sink())});
    for (int i = 0; i <= sink(); i++) {
        for (int j = i + 1; j <= sink(); j++) {
            add({-X(i, j), -S(x, i), S(x, j)});
            add({-X(i, j), S(x, i), -S(x, j)});
        }
    }
    for (int s = 0; s < int(literals_.size()); s++) {
        if (f_.value(x, literals_[std::size_t(s)]))
            differ(S(x, Formula::first_end(s)), -S(x, Formula::second_end(s)), carrier_bit(s));
    }
}

void PartFormula::add_cuts() {
    for (int literal : literals_) {
        const int s = carrier(literal);
        for (const Border& border : essential_.at(literal)) {
            cuts_[clauses_.size()] = {literal, border.off};
            differ(S(border.off, Formula::first_end(s)), S(border.off, Formula::second_end(s)),
                   carrier_bit(s));
        }
    }
}

void PartFormula::add_opposites(bool all) {
    for (const Opposite& o : opposites(f_)) {
        if (!taken(o.first.literal) || !taken(o.second.literal)) continue;
        if (!all && std::find(on_.begin(), on_.end(), o.on) != on_.end()) continue;
        const int s = carrier(o.first.literal);
        const int q = carrier(o.second.literal);
        opposites_.insert({clauses_.size(), o});
        differ(S(o.first.off, Formula::first_end(s)), S(o.second.off, Formula::first_end(q)),
               carrier_bit(s) | carrier_bit(q));
    }
}

}  // namespace lemmas
