#include "essential.hpp"

#include "passes.hpp"

namespace lemmas {

namespace {

// The literals below `count` are carried by some switch outside the set.
Clause outside(const Formula& f, const std::vector<int>& literals, std::size_t count,
               unsigned set) {
    Clause clause;
    for (std::size_t i = 0; i < count; i++) {
        for (int s = 0; s < f.switches(); s++) {
            if ((set >> s & 1) == 0) clause.push_back(f.L(s, literals[i]));
        }
    }
    return clause;
}

}  // namespace

Essential essential_literals(const Formula& formula) {
    Essential found;
    for (int y = 0; y < formula.rows(); y++) {
        if (!formula.on(y)) continue;
        for (int input = 0; input < formula.inputs(); input++) {
            const int x = formula.turned(y, input);
            if (formula.off(x)) found[formula.true_literal(y, input)].push_back({y, x});
        }
    }
    return found;
}

Clause carried(const Formula& formula, int literal) {
    Clause clause;
    for (int s = 0; s < formula.switches(); s++) clause.push_back(formula.L(s, literal));
    return clause;
}

void derive_essential(Derivation& d, const Essential& essential) {
    const Formula& f = d.formula();
    for (const auto& [literal, borders] : essential) {
        const Border& border = borders.front();
        const Clause clause = carried(f, literal);
        derive_steps(d, border.on, border.off, literal);
        derive_no_walk(d, border.on, border.off, clause);
        d.give(clause);
    }
}

void derive_pigeonhole(Derivation& d, const std::vector<int>& literals, int most) {
    const Formula& f = d.formula();
    for (int size = 1; size <= most; size++) {
        const int next = literals[std::size_t(size)];
        for (unsigned set = 0; set < 1u << f.switches(); set++) {
            if (__builtin_popcount(set) != size) continue;
            const Clause clause = outside(f, literals, std::size_t(size) + 1, set);
            // whoever of the set carries the next literal leaves too few for the
            // others; the last one needs no step of its own
            const unsigned last = 31u - unsigned(__builtin_clz(set));
            for (unsigned s = 0; s < last; s++) {
                if (set >> s & 1) d.add({-f.L(int(s), next)}, clause);
            }
            d.add({}, clause);
        }
    }
}

void derive_single(Derivation& d, const Essential& essential, int literal) {
    const Formula& f = d.formula();
    std::vector<int> others;
    for (const auto& entry : essential) {
        if (entry.first != literal) others.push_back(entry.first);
    }
    derive_pigeonhole(d, others, f.switches() - 2);
    for (int a = 0; a < f.switches(); a++) {
        for (int b = a + 1; b < f.switches(); b++) d.add({-f.L(a, literal), -f.L(b, literal)});
    }
}

}  // namespace lemmas
