#include "passes.hpp"

namespace lemmas {

namespace {

// The premise, or one of the steps from `first` to `last` is over s.
Clause unless_over(const Formula& f, int y, int s, int first, int last, const Clause& premise) {
    Clause clause = premise;
    for (int t = first; t <= last; t++) {
        clause.push_back(f.W(y, t, Formula::first_end(s)));
        clause.push_back(f.W(y, t, Formula::second_end(s)));
    }
    return clause;
}

}  // namespace

void derive_steps(Derivation& d, int y, int x, int literal) {
    const Formula& f = d.formula();
    for (int t = 1; t <= f.steps(); t++) {
        for (int e = 1; e <= f.ends(); e++) {
            const int begin = f.S(x, e);
            const int end = f.S(x, Formula::other(e));
            const int carried = f.L(Formula::switch_of(e), literal);
            d.add({-f.W(y, t, e), -end, begin, carried});
            d.add({-f.W(y, t, e), end, -begin, carried});
        }
    }
}

void derive_no_walk(Derivation& d, int y, int x, const Clause& clause) {
    const Formula& f = d.formula();
    const int ends = f.ends();
    d.add({-f.Z(y, 1)});
    for (int t = 1; t < f.steps(); t++) {
        for (int e = 1; e <= ends; e++) d.add({-f.W(y, t, e), -f.S(x, Formula::other(e))}, clause);
        for (int e = 1; e <= ends; e++) d.add({-f.W(y, t, e), -f.Z(y, t + 1)}, clause);
        d.add({-f.Z(y, t + 1)}, clause);
        for (int e = 1; e <= ends; e++) {
            for (int g = 1; g <= ends; g++) {
                if (g != Formula::other(e))
                    d.add({-f.W(y, t, g), -f.W(y, t + 1, e), -f.S(x, e)}, clause);
            }
            d.add({-f.W(y, t + 1, e), -f.S(x, e)}, clause);
        }
    }
    for (int e = 1; e <= ends; e++) d.add({-f.W(y, f.steps(), e)}, clause);
    d.add({}, clause);
}

void derive_sink_side(Derivation& d, int y, int x, int literal, int s, const Clause& premise,
                      int first) {
    const Formula& f = d.formula();
    const int last = f.steps();
    const auto over_s = [s](int e) { return Formula::switch_of(e) == s; };
    for (int e = 1; e <= f.ends(); e++) {
        d.add({-f.W(y, last, e), f.S(x, e), f.L(Formula::switch_of(e), literal)});
    }
    for (int t = last - 1; t >= first; t--) {
        const Clause later = unless_over(f, y, s, t + 1, last, premise);
        const Clause after_next = unless_over(f, y, s, t + 2, last, premise);
        for (int g = 1; g <= f.ends(); g++) {
            const int end = f.S(x, Formula::other(g));
            for (int e = 1; e <= f.ends(); e++) {
                if (over_s(e) || e == Formula::other(g)) continue;
                const Clause link{-f.W(y, t, g), -f.W(y, t + 1, e), end};
                // the last link does not depend on s
                d.add(link,
                      t + 1 == last ? Clause{f.L(Formula::switch_of(e), literal)} : after_next);
            }
            d.add({-f.W(y, t, g), end}, later);
        }
        for (int e = 1; e <= f.ends(); e++) {
            if (!over_s(e)) d.add({-f.W(y, t, e), f.S(x, e)}, later);
        }
    }
}

void derive_source_side(Derivation& d, int y, int x, int literal, int s, const Clause& premise,
                        int last) {
    const Formula& f = d.formula();
    const auto over_s = [s](int e) { return Formula::switch_of(e) == s; };
    d.add({-f.Z(y, 1)});
    for (int e = 1; e <= f.ends(); e++) {
        d.add({-f.W(y, 1, e), -f.S(x, Formula::other(e)), f.L(Formula::switch_of(e), literal)});
    }
    for (int t = 2; t <= last; t++) {
        const Clause earlier = unless_over(f, y, s, 1, t - 1, premise);
        const Clause before_last = unless_over(f, y, s, 1, t - 2, premise);
        // the walk has not stopped before t
        for (int g = 1; g <= f.ends(); g++) {
            if (!over_s(g)) d.add({-f.W(y, t - 1, g), -f.Z(y, t)}, earlier);
        }
        d.add({-f.Z(y, t)}, earlier);
        for (int e = 1; e <= f.ends(); e++) {
            for (int g = 1; g <= f.ends(); g++) {
                if (over_s(g) || g == Formula::other(e)) continue;
                const Clause link{-f.W(y, t - 1, g), -f.W(y, t, e), -f.S(x, e)};
                // the first link does not depend on s
                d.add(link, t == 2 ? Clause{f.L(Formula::switch_of(g), literal)} : before_last);
            }
            d.add({-f.W(y, t, e), -f.S(x, e)}, earlier);
        }
        for (int e = 1; e <= f.ends(); e++) {
            if (!over_s(e)) d.add({-f.W(y, t, e), -f.S(x, Formula::other(e))}, earlier);
        }
    }
}

void derive_second_step(Derivation& d, int y, int x, int other) {
    const Formula& f = d.formula();
    const int ends = f.ends();
    d.add({-f.Z(y, 1)});
    for (int e = 1; e <= ends; e++)
        d.add({-f.W(y, 1, e), -f.S(x, Formula::other(e)), -f.S(other, Formula::other(e))});
    for (int e = 1; e <= ends; e++) d.add({-f.W(y, 1, e), -f.Z(y, 2)});
    d.add({-f.Z(y, 2)});
    for (int e = 1; e <= ends; e++) {
        const Clause begin{-f.W(y, 2, e), -f.S(x, e), -f.S(other, e)};
        for (int g = 1; g <= ends; g++) {
            if (g != Formula::other(e)) d.add({-f.W(y, 1, g)}, begin);
        }
        d.add(begin);
    }
}

void derive_last_but_one(Derivation& d, int y, int x, int other) {
    const Formula& f = d.formula();
    const int ends = f.ends();
    const int last = f.steps();
    for (int e = 1; e <= ends; e++) d.add({-f.W(y, last, e), f.S(x, e), f.S(other, e)});
    for (int e = 1; e <= ends; e++) {
        const int at = Formula::other(e);
        const Clause end{-f.W(y, last - 1, e), f.S(x, at), f.S(other, at)};
        for (int g = 1; g <= ends; g++) {
            if (g != at) d.add({-f.W(y, last, g)}, end);
        }
        d.add(end);
    }
}

}  // namespace lemmas
