// The clauses that are derived, in order, and those among them that the solver
// is given as lemmas.
//
// Each added clause follows from the request's clauses and those before it by
// unit propagation: set its literals false, and a conflict comes. Nothing here
// tests that; the converter does, and the proved check after it. A clause that
// stands already is not added again, so that families may share their steps.
#pragma once

#include <algorithm>
#include <set>
#include <vector>

#include "formula.hpp"

namespace lemmas {

class Derivation {
  public:
    explicit Derivation(const Formula& formula) : formula_(formula) {}

    const Formula& formula() const { return formula_; }

    // Adds the clause of some literals and a part that several clauses share.
    // After the empty clause there is nothing more to add.
    void add(Clause clause, const Clause& shared = {}) {
        if (is_refutation()) return;
        clause.insert(clause.end(), shared.begin(), shared.end());
        if (known_.insert(clause).second) steps_.push_back(std::move(clause));
    }

    // Whether the last clause is empty.
    bool is_refutation() const { return !steps_.empty() && steps_.back().empty(); }

    // A clause that was added, for the solver too. It is given once: a solver that
    // has it twice may delete one of two where the proof has a single one.
    void give(const Clause& lemma) {
        Clause sorted = lemma;
        std::sort(sorted.begin(), sorted.end());
        if (given_.insert(sorted).second) lemmas_.push_back(lemma);
    }

    const std::vector<Clause>& steps() const { return steps_; }
    const std::vector<Clause>& lemmas() const { return lemmas_; }

  private:
    const Formula& formula_;
    std::set<Clause> known_;
    std::set<Clause> given_;
    std::vector<Clause> steps_;
    std::vector<Clause> lemmas_;
};

}  // namespace lemmas
