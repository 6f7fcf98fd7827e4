// Passes over the walk of an on row, seen from off rows.
//
// Each off row x separates the source's side, S(x,i) false, from the sink's. A
// switch that is closed on x has both ends on one side. The walk of an on row y
// starts where S(x,.) is false and ends where it is true. A pass follows the walk
// step by step, from the source on or from the sink back, and derives on which
// side each step begins and ends.
//
// For each step a pass goes through all pairs of an end before and an end after,
// which is what it costs. So whatever can be said without naming a switch, or with
// one only, is derived once and shared.
#pragma once

#include "derivation.hpp"

namespace lemmas {

// A step of the walk of y over a switch that does not carry the literal stays on
// its side of x, where y and x differ in that literal alone.
void derive_steps(Derivation& d, int y, int x, int literal);

// The whole walk, under the complement of a clause by which no step leaves the
// source's side of x: it never ends, so the clause is derived.
void derive_no_walk(Derivation& d, int y, int x, const Clause& clause);

// The walk crosses from one side of x to the other by carriers of the literal
// alone, where y and x differ in that literal. For a carrier s that is alone, as
// the premise says: unless a later step is over s, a step begins and ends on the
// sink's side, for steps from `first` on; unless an earlier one was, on the
// source's side, for steps up to `last`.
void derive_sink_side(Derivation& d, int y, int x, int literal, int s, const Clause& premise,
                      int first);
void derive_source_side(Derivation& d, int y, int x, int literal, int s, const Clause& premise,
                        int last);

// For two off rows that differ from y in one literal each: the second step does
// not begin on the sink's side of both, and the last but one does not end on the
// source's side of both.
void derive_second_step(Derivation& d, int y, int x, int other);
void derive_last_but_one(Derivation& d, int y, int x, int other);

}  // namespace lemmas
