// A refutation of few clauses, as short as it can be had.
//
// Clauses over some hundred variables are refuted as a solver does it: choose a
// literal, propagate units, learn a clause from each conflict, go back. What
// counts here is not time but the length of the proof, which is repeated many
// times elsewhere. So the choice is made with care, among the literals whose two
// cases set the most, and by chance among the best few of them: a caller tries
// several seeds and takes the shortest.
//
// The learned clauses that the empty clause needs are the lines. Each follows by
// unit propagation from the clauses and the lines before it.
#pragma once

#include <cstddef>
#include <cstdint>
#include <vector>

#include "formula.hpp"

namespace lemmas {

// A line: its clause, what it is assumed under, and how many clauses it comes from.
struct Line {
    Clause clause;
    unsigned under;
    std::size_t hints;
};

class Search {
  public:
    // Clauses over the variables 1 to the number given, each with a set of what it
    // is assumed under, as bits.
    Search(int variables, const std::vector<Clause>& clauses, std::vector<unsigned> under);

    // Whether the clauses are refuted within so many conflicts. The seed decides
    // how choices are weighed, and among how many of the best chance chooses: with
    // 0 it is always the best one.
    bool refute(std::size_t conflicts, unsigned seed);

    // The lines of the refutation, the last one empty.
    const std::vector<Line>& lines() const { return lines_; }

    // Whether the refutation uses a given clause, by its index.
    bool uses(std::size_t clause) const { return used_[clause]; }

  private:
    // A learned clause with the clauses that it comes from.
    struct Learned {
        Clause clause;
        std::vector<int> from;
        unsigned under = 0;
    };

    void start(unsigned seed);
    int value(int literal) const;
    void keep(const Clause& clause);
    void assign(int literal, int reason);
    int propagate();
    void go_back(std::size_t level);
    std::size_t count_of(int literal);
    int choose();
    bool implied(std::size_t v, const std::vector<bool>& seen) const;
    Learned learn(int conflict);
    void collect(const Learned& last);

    std::vector<Clause> clauses_;
    std::size_t given_;                    // clauses that are given
    std::vector<std::vector<int>> where_;  // clauses with a literal, by its index
    std::vector<signed char> values_;
    std::vector<int> reasons_;         // by variable: a clause, or -1 for a choice
    std::vector<std::size_t> levels_;  // by variable: how many choices came before
    std::vector<int> trail_;
    std::vector<std::size_t> choices_;  // where in the trail each choice stands
    std::size_t next_ = 0;
    std::vector<Learned> learned_;
    std::vector<Line> lines_;
    std::vector<unsigned> under_;  // by clause
    std::vector<bool> used_;
    unsigned seed_ = 0;
    std::uint32_t chance_ = 0;
};

}  // namespace lemmas
