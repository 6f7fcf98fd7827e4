// Odd cycles of opposites.
//
// Sides are nodes, opposites are edges: what an edge joins is different. So an
// odd cycle cannot be, once each literal of it has a single carrier.
#pragma once

#include <vector>

#include "carriers.hpp"

namespace lemmas {

// A shortest odd cycle over as few literals as possible, as its edges in order;
// empty where there is none.
std::vector<Opposite> odd_cycle(const Formula& formula);

// The literals of a cycle, each once, in the order in which they come.
std::vector<int> literals_of(const std::vector<Opposite>& cycle);

// For each choice of switches for the cycle's literals, the clause that they
// cannot all be the carriers; the edges are derived. Gives them to the solver.
void derive_cycle(Derivation& d, const std::vector<Opposite>& cycle, const Premise& premise);

}  // namespace lemmas
