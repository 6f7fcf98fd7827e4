// Parts of the network that cannot be.
//
// Where as many switches are there as essential literals, each of these has a
// single carrier and no other literal is carried. With one switch to spare there
// is one literal more: an essential one that has two carriers, or another one. Take
// some literals that have a single carrier: often their carriers contradict each
// other already. The contradiction is sought once, and its lines are repeated for
// each choice of carriers.
#pragma once

#include <vector>

#include "part_formula.hpp"

namespace lemmas {

// The part whose derivation is the shortest that was found, for as many switches
// as essential literals.
Part find_part(const Formula& formula, const Essential& essential);

// The same for one switch to spare: a part for each literal that it may carry, or
// none at all where one was not found.
std::vector<Part> find_parts(const Formula& formula, const Essential& essential);

// Derives that the literals of the part have no carriers, from single carriers,
// which are derived, and so ends with the empty clause.
void derive_part(Derivation& d, const Essential& essential, const Part& part);

// With a switch to spare: derives for each choice of carriers that they are not
// alone, or that another literal which is closed on the part's rows is carried.
// Gives these clauses to the solver, for which there is little left to do.
void derive_spare_part(Derivation& d, const Essential& essential, const Part& part);

}  // namespace lemmas
