// What follows for switches that are alone in carrying an essential literal.
//
// Cuts. A switch that is alone in carrying v crosses from one side of x to the
// other, at every border (y,x) of v: its ends have different sides there.
//
// Opposites. Let y be an on row where turning the literal u or the literal w
// makes the row off; x is y with w turned, where u is still closed, and x' is y
// with u turned. The walk of y passes over both carriers. If s is alone in
// carrying u and q in carrying w, then s as a whole is on one side of x, and q as
// a whole on one side of x', and these are different: S(x,s) is true where q comes
// before s on the walk, and S(x',q) where s comes before q.
//
// Each is derived for every switch, or pair of switches, under a premise that
// says who the carriers are.
#pragma once

#include <functional>
#include <tuple>
#include <vector>

#include "essential.hpp"

namespace lemmas {

// One of two literals that a walk needs, and the off row at which its carrier
// has a side.
struct Side {
    int literal;
    int off;
    bool operator==(const Side& b) const { return literal == b.literal && off == b.off; }
    bool operator<(const Side& b) const {
        return literal != b.literal ? literal < b.literal : off < b.off;
    }
};

struct Opposite {
    int on;
    Side first;
    Side second;
    bool operator<(const Opposite& b) const {
        return std::tie(on, first, second) < std::tie(b.on, b.first, b.second);
    }
};

// All of them, for every on row and two of its literals.
std::vector<Opposite> opposites(const Formula& formula);

// The literals of a clause that say that s is not what is assumed of a carrier
// of the literal: "s does not carry it", enough where no two switches do, or
// "another switch carries it".
using Premise = std::function<Clause(int s, int literal)>;
Premise carries(const Formula& formula);
Premise alone(const Formula& formula);

// Derives the two clauses of each cut, for every essential literal, every off
// row at its borders and every switch, and gives them to the solver.
void derive_cuts(Derivation& d, const Essential& essential, const Premise& premise);

// Derives the two clauses of an opposite for each two switches, and gives them to
// the solver.
void derive_opposite(Derivation& d, const Opposite& opposite, const Premise& premise);

}  // namespace lemmas
