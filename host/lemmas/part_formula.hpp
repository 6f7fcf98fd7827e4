// What holds of a part of the network, once it is known which switches carry some
// essential literals: clauses over the part's own variables.
//
// The part has a switch for each literal taken, numbered in their order. Its on
// rows are those where no other literal can be closed, so that their walks keep to
// the part. Its clauses are those of document 01 with the literals filled in, the
// cuts and the opposites. Each has the set of what it is assumed under: a bit for
// each carrier, and one for each on row whose walk keeps to the part.
#pragma once

#include <cstddef>
#include <map>
#include <set>
#include <vector>

#include "carriers.hpp"
#include "search.hpp"

namespace lemmas {

// A contradiction of a part: its lines, and which cuts and opposites they use.
struct Part {
    std::vector<int> literals;
    std::vector<Line> lines;  // over the part's variables; the last one is empty
    std::set<Side> cuts;
    std::vector<Opposite> opposites;
    std::size_t cost = SIZE_MAX;  // about how many numbers its refutation has

    bool found() const { return !lines.empty(); }
    // What the contradiction as a whole is assumed under.
    unsigned under() const { return lines.back().under; }
};

// The bits of what a clause is assumed under.
constexpr unsigned carrier_bit(int s) { return 1u << s; }
constexpr unsigned row_bit(int y) { return 1u << (8 + y); }
constexpr unsigned carriers_of(unsigned under) { return under & (row_bit(0) - 1); }

class PartFormula {
  public:
    // `spare` is a literal that may be carried besides, open on the part's on rows,
    // or -1. Opposites are dear to derive, and those of the part's own on rows can
    // be done without.
    PartFormula(const Formula& formula, const Essential& essential,
                const std::vector<int>& literals, int spare, bool all_opposites);

    int variables() const { return int(variables_.size()); }
    const std::vector<Clause>& clauses() const { return clauses_; }
    const std::vector<unsigned>& under() const { return under_; }

    // What a refutation of the clauses uses.
    Part part_of(const Search& search) const;

    // How many switches of the part a line rests on or names.
    int switches(const Line& line) const;

    // A literal of the part as one of the request's, with the carriers chosen.
    int placed(const std::vector<int>& chosen, int literal) const;

  private:
    enum class Kind { joined, enters, stopped, side };
    struct Variable {
        Kind kind;
        int row;   // of enters, stopped and side
        int step;  // of enters and stopped
        int a;     // a terminal
        int b;     // a second terminal, of joined
        bool operator<(const Variable& v) const;
    };

    int ends() const { return 2 * int(literals_.size()); }
    int sink() const { return ends() + 1; }
    int literal_at(int e) const { return literals_[std::size_t(Formula::switch_of(e))]; }
    bool taken(int literal) const;
    int carrier(int literal) const;
    bool keeps_to(int y, int spare) const;

    int number(const Variable& variable);
    int X(int i, int j);
    int W(int y, int t, int e) { return number({Kind::enters, y, t, e, 0}); }
    int Z(int y, int t) { return number({Kind::stopped, y, t, 0, 0}); }
    int S(int x, int i) { return number({Kind::side, x, 0, i, 0}); }

    void add(const Clause& clause, unsigned under = 0);
    void differ(int a, int b, unsigned under);
    void add_joins();
    void add_on_row(int y);
    void add_off_row(int x);
    void add_cuts();
    void add_opposites(bool all);

    const Formula& f_;
    const Essential& essential_;
    std::vector<int> literals_;
    std::vector<int> on_;
    std::vector<Clause> clauses_;
    std::vector<unsigned> under_;
    std::vector<Variable> variables_;
    std::map<Variable, int> numbers_;
    // by the index of the first of two clauses
    std::map<std::size_t, Side> cuts_;
    std::map<std::size_t, Opposite> opposites_;
};

}  // namespace lemmas
