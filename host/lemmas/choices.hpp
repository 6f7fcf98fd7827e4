// Choices of different switches as the carriers of some literals.
#pragma once

#include <cstddef>
#include <functional>
#include <vector>

#include "derivation.hpp"

namespace lemmas {

// Goes through all choices of so many different switches, in order.
void for_each_choice(const Formula& formula, std::size_t count,
                     const std::function<void(const std::vector<int>&)>& use);

// Once no choice of carriers is left for the literals, and each of them is
// carried: the empty clause.
void close_choices(Derivation& d, const std::vector<int>& literals);

}  // namespace lemmas
