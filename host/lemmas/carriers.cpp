#include "carriers.hpp"

#include <algorithm>
#include <set>

#include "passes.hpp"

namespace lemmas {

namespace {

Clause joined(Clause a, const Clause& b) {
    a.insert(a.end(), b.begin(), b.end());
    return a;
}

// Steps from `first` to `last` are not over the switches given, one step after the
// other, in this order.
void derive_not_over(Derivation& d, int y, const std::vector<int>& switches, int first, int last,
                     const Clause& clause) {
    const Formula& f = d.formula();
    const int way = first <= last ? 1 : -1;
    for (int t = first; t != last + way; t += way) {
        for (int s : switches) {
            d.add({-f.W(y, t, Formula::first_end(s))}, clause);
            d.add({-f.W(y, t, Formula::second_end(s))}, clause);
        }
    }
}

// A clause under whose complement step t is over no switch.
void derive_stuck(Derivation& d, int y, int t, const Clause& clause) {
    const Formula& f = d.formula();
    for (int e = 1; e <= f.ends(); e++) d.add({-f.W(y, t, e)}, clause);
    d.add({}, clause);
}

// Both clauses of one switch's cut. With both ends on the source's side the walk
// is not over s, from its last step back to the first, which then begins on the
// sink's side; and the other way round.
void derive_cut(Derivation& d, const Border& border, int literal, int s, const Clause& premise) {
    const Formula& f = d.formula();
    const int y = border.on;
    const int x = border.off;
    const int last = f.steps();
    const int a = f.S(x, Formula::first_end(s));
    const int b = f.S(x, Formula::second_end(s));
    const Clause one = joined(premise, {a, b});
    const Clause other = joined(premise, {-a, -b});
    derive_sink_side(d, y, x, literal, s, premise, 1);
    derive_not_over(d, y, {s}, last, 1, one);
    derive_stuck(d, y, 1, one);
    derive_source_side(d, y, x, literal, s, premise, last);
    derive_not_over(d, y, {s}, 1, last, other);
    derive_stuck(d, y, last, other);
    d.give(one);
    d.give(other);
}

}  // namespace

std::vector<Opposite> opposites(const Formula& formula) {
    std::vector<Opposite> found;
    for (int y = 0; y < formula.rows(); y++) {
        if (!formula.on(y)) continue;
        for (int i = 0; i < formula.inputs(); i++) {
            for (int j = i + 1; j < formula.inputs(); j++) {
                const int without_i = formula.turned(y, i);
                const int without_j = formula.turned(y, j);
                if (!formula.off(without_i) || !formula.off(without_j)) continue;
                found.push_back({y,
                                 {formula.true_literal(y, i), without_j},
                                 {formula.true_literal(y, j), without_i}});
            }
        }
    }
    return found;
}

Premise carries(const Formula& formula) {
    return [&formula](int s, int literal) { return Clause{-formula.L(s, literal)}; };
}

Premise alone(const Formula& formula) {
    return [&formula](int s, int literal) {
        Clause clause;
        for (int p = 0; p < formula.switches(); p++) {
            if (p != s) clause.push_back(formula.L(p, literal));
        }
        return clause;
    };
}

void derive_cuts(Derivation& d, const Essential& essential, const Premise& premise) {
    for (const auto& [literal, borders] : essential) {
        std::set<int> done;
        for (const Border& border : borders) {
            if (!done.insert(border.off).second) continue;
            derive_steps(d, border.on, border.off, literal);
            for (int s = 0; s < d.formula().switches(); s++) {
                derive_cut(d, border, literal, s, premise(s, literal));
            }
        }
    }
}

void derive_opposite(Derivation& d, const Opposite& opposite, const Premise& premise) {
    const Formula& f = d.formula();
    const int y = opposite.on;
    const int last = f.steps();
    const Side& u = opposite.first;
    const Side& w = opposite.second;
    derive_steps(d, y, w.off, u.literal);
    derive_steps(d, y, u.off, w.literal);
    if (last > 1) {
        derive_second_step(d, y, u.off, w.off);
        derive_last_but_one(d, y, u.off, w.off);
        // the row with u turned is w's, and the other way round
        for (int s = 0; s < f.switches(); s++) {
            for (const auto& [literal, off] : {std::pair{u.literal, w.off}, {w.literal, u.off}}) {
                derive_sink_side(d, y, off, literal, s, premise(s, literal), 2);
                derive_source_side(d, y, off, literal, s, premise(s, literal), last - 1);
            }
        }
    }
    for (int s = 0; s < f.switches(); s++) {
        for (int q = 0; q < f.switches(); q++) {
            if (s == q) continue;
            const Clause carriers = joined(premise(s, u.literal), premise(q, w.literal));
            const int a = f.S(u.off, Formula::first_end(s));
            const int b = f.S(w.off, Formula::first_end(q));
            const Clause one = joined(carriers, {a, b});
            const Clause other = joined(carriers, {-a, -b});
            // with both on the source's side no step from the second on is over
            // them, and the second is then over none; the other way round for the
            // first steps up to the last but one
            const int second = std::min(2, last);
            const int before = std::max(1, last - 1);
            derive_not_over(d, y, {s, q}, last, second, one);
            derive_stuck(d, y, second, one);
            derive_not_over(d, y, {s, q}, 1, before, other);
            derive_stuck(d, y, before, other);
            d.give(one);
            d.give(other);
        }
    }
}

}  // namespace lemmas
