#include "families.hpp"

#include <algorithm>

#include "carriers.hpp"
#include "choices.hpp"
#include "cycle.hpp"
#include "essential.hpp"
#include "part.hpp"

namespace lemmas {

namespace {

// What the choice of a family goes by.
struct Shape {
    explicit Shape(const Formula& formula)
        : essential(essential_literals(formula)), cycle(odd_cycle(formula)) {}

    // As many switches as essential literals, so that each has one carrier.
    bool is_exact(const Formula& formula) const {
        return formula.steps() > 0 && !essential.empty() &&
               int(essential.size()) == formula.switches();
    }

    // One switch more than that.
    bool has_spare(const Formula& formula) const {
        return formula.steps() > 0 && !essential.empty() &&
               int(essential.size()) + 1 == formula.switches();
    }

    Essential essential;
    std::vector<Opposite> cycle;
};

// Each literal that is essential, by its number.
std::vector<int> names(const Essential& essential) {
    std::vector<int> literals;
    for (const auto& entry : essential) literals.push_back(entry.first);
    return literals;
}

// With as many switches as essential literals: no literal is carried twice, and
// no other literal at all.
void derive_exact(Derivation& d, const Essential& essential) {
    const Formula& f = d.formula();
    for (const auto& entry : essential) {
        derive_single(d, essential, entry.first);
        for (int a = 0; a < f.switches(); a++) {
            for (int b = a + 1; b < f.switches(); b++)
                d.give({-f.L(a, entry.first), -f.L(b, entry.first)});
        }
    }
    const std::vector<int> literals = names(essential);
    derive_pigeonhole(d, literals, f.switches() - 1);
    for (int s = 0; s < f.switches(); s++) {
        for (int v = 0; v < f.literals(); v++) {
            if (essential.count(v) > 0) continue;
            d.add({-f.L(s, v)});
            d.give({-f.L(s, v)});
        }
    }
}

// Each family derives what it has after the essential literals; false where that
// is nothing.
bool essential(Derivation&, const Shape&) { return true; }

bool pigeonhole(Derivation& d, const Shape& shape) {
    if (int(shape.essential.size()) <= d.formula().switches()) return false;
    derive_pigeonhole(d, names(shape.essential), d.formula().switches());
    return true;
}

bool cycle(Derivation& d, const Shape& shape) {
    if (!shape.is_exact(d.formula()) || shape.cycle.empty()) return false;
    for (int literal : literals_of(shape.cycle)) derive_single(d, shape.essential, literal);
    derive_cycle(d, shape.cycle, carries(d.formula()));
    close_choices(d, literals_of(shape.cycle));
    return true;
}

bool part(Derivation& d, const Shape& shape) {
    if (!shape.is_exact(d.formula())) return false;
    const Part part = find_part(d.formula(), shape.essential);
    if (!part.found()) return false;
    derive_exact(d, shape.essential);
    derive_part(d, shape.essential, part);
    return true;
}

bool parts(Derivation& d, const Shape& shape) {
    if (!shape.has_spare(d.formula())) return false;
    const std::vector<Part> parts = find_parts(d.formula(), shape.essential);
    for (const Part& part : parts) derive_spare_part(d, shape.essential, part);
    return !parts.empty();
}

bool exact(Derivation& d, const Shape& shape) {
    if (!shape.is_exact(d.formula())) return false;
    derive_exact(d, shape.essential);
    derive_cuts(d, shape.essential, carries(d.formula()));
    return true;
}

bool exact_opposites(Derivation& d, const Shape& shape) {
    if (!exact(d, shape)) return false;
    for (const Opposite& o : opposites(d.formula())) derive_opposite(d, o, carries(d.formula()));
    return true;
}

bool sole(Derivation& d, const Shape& shape) {
    if (shape.essential.empty() || d.formula().steps() == 0) return false;
    derive_cuts(d, shape.essential, alone(d.formula()));
    if (!shape.cycle.empty()) derive_cycle(d, shape.cycle, alone(d.formula()));
    return true;
}

bool sole_opposites(Derivation& d, const Shape& shape) {
    if (!sole(d, shape)) return false;
    for (const Opposite& o : opposites(d.formula())) derive_opposite(d, o, alone(d.formula()));
    return true;
}

struct Family {
    const char* name;
    bool (*derive)(Derivation&, const Shape&);
};

const std::vector<Family> families{
    {"essential", essential},
    {"pigeonhole", pigeonhole},
    {"cycle", cycle},
    {"part", part},
    {"parts", parts},
    {"exact", exact},
    {"sole", sole},
    {"exact-opposites", exact_opposites},
    {"sole-opposites", sole_opposites},
};

}  // namespace

std::vector<Attempt> plan(const Formula& formula) {
    // for many given clauses: proofs come out shorter with the solver's own
    // simplifications off
    const std::string plain = "--unsat --bumpreason=0 --shrink=0 --inprocessing=0";
    std::vector<Attempt> attempts;
    const Shape shape(formula);
    const int literals = formula.steps() > 0 ? int(shape.essential.size()) : 0;
    if (literals > formula.switches()) attempts.push_back({"pigeonhole", true, ""});
    // up to five switches the solver is quicker than a search for parts
    const bool many = formula.switches() > 5;
    if (shape.is_exact(formula)) {
        if (!shape.cycle.empty()) attempts.push_back({"cycle", true, ""});
        if (many) attempts.push_back({"part", true, ""});
        attempts.push_back({"exact", false, plain});
        attempts.push_back({"exact-opposites", false, plain});
    }
    if (literals > 0 && literals < formula.switches()) {
        if (many && shape.has_spare(formula)) attempts.push_back({"parts", false, "--unsat"});
        attempts.push_back({"sole", false, "--unsat"});
        attempts.push_back({"sole-opposites", false, "--unsat"});
    }
    attempts.push_back({"essential", false, "--unsat"});
    return attempts;
}

Derived derive(Derivation& d, const std::string& family) {
    const Formula& f = d.formula();
    const auto found = std::find_if(families.begin(), families.end(),
                                    [&](const Family& one) { return one.name == family; });
    if (found == families.end()) return Derived::unknown;
    const Shape shape(f);
    if (f.steps() > 0) derive_essential(d, shape.essential);
    return found->derive(d, shape) ? Derived::done : Derived::nothing;
}

}  // namespace lemmas
