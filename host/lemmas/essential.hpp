// Essential literals.
//
// Where an on row y and an off row x differ in one input, some switch carries the
// literal that is 1 on y and 0 on x: else what is closed on y is closed on x, and
// y's walk never leaves the source's side of x.
#pragma once

#include <map>
#include <vector>

#include "derivation.hpp"

namespace lemmas {

// An on row and an off row that differ in one input.
struct Border {
    int on;
    int off;
};

// The essential literals, each with its borders.
using Essential = std::map<int, std::vector<Border>>;
Essential essential_literals(const Formula& formula);

// "Some switch carries the literal": the clause of L(s,literal) over all s.
Clause carried(const Formula& formula, int literal);

// Derives that clause for each essential literal, by its first border, and gives
// it to the solver.
void derive_essential(Derivation& d, const Essential& essential);

// Two essential literals on one switch are one too many: for each set of
// switches, the first so many of the literals are not all within it. The clauses
// for sets of up to `most` switches; with as many as there are switches, and more
// literals than that, the last one is the empty clause.
void derive_pigeonhole(Derivation& d, const std::vector<int>& literals, int most);

// With as many switches as essential literals: no two switches carry this one.
void derive_single(Derivation& d, const Essential& essential, int literal);

}  // namespace lemmas
