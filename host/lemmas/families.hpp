// The families of derivations, and which of them are tried for a request.
#pragma once

#include <string>
#include <vector>

#include "derivation.hpp"

namespace lemmas {

// One attempt at a refutation: a family, and the solver's options after it; or no
// solver, where the derivation ends with the empty clause.
struct Attempt {
    std::string family;
    bool alone;
    std::string options;
};

// The attempts for a request, the cheapest first.
std::vector<Attempt> plan(const Formula& formula);

// Derives what a family has for the request: there may be nothing, and there may
// be no family of this name.
enum class Derived { done, nothing, unknown };
Derived derive(Derivation& d, const std::string& family);

}  // namespace lemmas
