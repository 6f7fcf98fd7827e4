// Clauses, values and propagation.
//
// A literal is a number: 2v for variable v, 2v + 1 for its complement, as in
// the binary form of proofs. Two literals of each clause that stands are
// watched, as solvers do.
//
// A clause that is deleted is only marked. The entries that it leaves in the
// lists of its watched literals are dropped when propagation comes to them, or
// all together once they are more than half of all entries, so a deletion
// searches no list. That is sound since, going in one direction over a proof,
// no clause stands again after it was deleted; the lists are made anew between
// the two directions.
#ifndef NORDKELCH_LRAT_CLAUSES_HPP
#define NORDKELCH_LRAT_CLAUSES_HPP

#include <algorithm>
#include <cstddef>
#include <cstdint>
#include <utility>
#include <vector>

#include "files.hpp"

namespace lrat {

using Literal = std::uint32_t;

constexpr std::uint32_t none = UINT32_MAX;

inline Literal complement(Literal literal) { return literal ^ 1; }
inline std::uint32_t variable(Literal literal) { return literal >> 1; }

// As it is written.
inline std::int64_t number(Literal literal) {
    return literal % 2 == 0 ? std::int64_t(literal / 2) : -std::int64_t(literal / 2);
}

// Literals of several clauses, one clause after another; or hints of several
// lines.
class ClauseList {
  public:
    std::uint32_t count() const { return std::uint32_t(ends_.size()); }
    const Literal* begin(std::uint32_t c) const {
        return literals_.data() + (c == 0 ? 0 : ends_[c - 1]);
    }
    const Literal* end(std::uint32_t c) const { return literals_.data() + ends_[c]; }
    std::uint32_t size(std::uint32_t c) const { return std::uint32_t(end(c) - begin(c)); }

    std::size_t total() const { return literals_.size(); }

    void reserve(std::size_t clauses, std::size_t literals) {
        ends_.reserve(clauses);
        literals_.reserve(literals);
    }

    void add(const Literal* first, const Literal* last) {
        literals_.insert(literals_.end(), first, last);
        ends_.push_back(literals_.size());
    }

    // To replace clauses by shorter ones, from the first to the last, without a
    // second list: take() hands out the clause after the one that it handed out
    // before, and put() puts one behind those that were put.
    class Rewriting {
      public:
        explicit Rewriting(ClauseList& list) : list_(list) {}

        void take(std::vector<std::uint32_t>& into) {
            const std::size_t end = list_.ends_[taken_++];
            into.assign(list_.literals_.begin() + std::ptrdiff_t(from_),
                        list_.literals_.begin() + std::ptrdiff_t(end));
            from_ = end;
        }

        void put(const std::vector<std::uint32_t>& clause) {
            std::copy(clause.begin(), clause.end(), list_.literals_.begin() + std::ptrdiff_t(to_));
            to_ += clause.size();
            list_.ends_[put_++] = to_;
        }

        // Those that were put are all.
        void finish() {
            list_.ends_.resize(put_);
            list_.literals_.resize(to_);
        }

      private:
        ClauseList& list_;
        std::size_t taken_ = 0, put_ = 0;  // clauses
        std::size_t from_ = 0, to_ = 0;    // literals
    };

  private:
    std::vector<Literal> literals_;
    std::vector<std::size_t> ends_;
};

// The clause file: its clauses have the ids 1 to C, here the indexes 0 to C - 1.
struct Formula {
    std::uint32_t last_variable = 0;
    ClauseList clauses;
};

class Clauses {
  public:
    // Clauses that a check has used already, and the others.
    enum Kind { used = 0, other = 1 };

    // Starts with the formula's clauses, with room for so many more literals.
    // Memory that is reserved takes no page before it is written.
    Clauses(const Formula& formula, std::size_t more_literals)
        : values_(2 * std::size_t(formula.last_variable) + 2, 0),
          reasons_(std::size_t(formula.last_variable) + 1, none) {
        for (auto& lists : watches_) lists.resize(values_.size());
        const ClauseList& list = formula.clauses;
        const std::uint32_t count = list.count();
        literals_.reserve(list.total() + more_literals);
        for (std::uint32_t c = 0; c < count; c++) add(list.begin(c), list.end(c));
    }

    // Adds a clause that does not stand yet; returns its index.
    std::uint32_t add(const Literal* first, const Literal* last) {
        Clause clause;
        clause.start = std::uint32_t(literals_.size());
        clause.size = std::uint32_t(last - first) & 0x3fffffff;
        if (literals_.size() + clause.size >= none || clauses_.size() >= none / 2)
            stop("the proof has too many literals");
        literals_.insert(literals_.end(), first, last);
        clauses_.push_back(clause);
        return std::uint32_t(clauses_.size() - 1);
    }

    std::uint32_t count() const { return std::uint32_t(clauses_.size()); }
    std::uint32_t last_variable() const { return std::uint32_t(reasons_.size() - 1); }
    Literal* begin(std::uint32_t c) { return literals_.data() + clauses_[c].start; }
    Literal* end(std::uint32_t c) { return begin(c) + clauses_[c].size; }
    bool is_used(std::uint32_t c) const { return clauses_[c].kind == used; }

    // Drops the literals after the first so many of a clause that does not
    // stand.
    void cut(std::uint32_t c, std::uint32_t size) { clauses_[c].size = size & 0x3fffffff; }

    // Lets a clause take part in propagation. Its watched literals are the
    // first two; a clause of one literal is kept in a list of its own.
    void attach(std::uint32_t c) {
        clauses_[c].stands = true;
        watch(c);
    }

    void detach(std::uint32_t c) {
        clauses_[c].stands = false;
        leave(c);
    }

    // Marks a clause that stands as used. No literal may have a value.
    void use(std::uint32_t c) {
        clauses_[c].kind = used;
        watch(c);
        leave(c);
    }

    bool value_is_true(Literal literal) const { return values_[literal] > 0; }

    // The clause that made a literal true; none for one that was assumed.
    std::uint32_t reason(Literal literal) const { return reasons_[variable(literal)]; }

    const std::vector<Literal>& trail() const { return trail_; }

    void assume(Literal literal) { assign(literal, none); }

    void clear_values() {
        for (Literal literal : trail_) values_[literal] = values_[complement(literal)] = 0;
        trail_.clear();
        forward_ = 0;
    }

    // Between the two directions: the lists of the clauses that stand, anew.
    void watch_anew() {
        clear_values();
        for (auto& lists : watches_) {
            for (auto& list : lists) list.clear();
        }
        for (auto& units : units_) units.clear();
        entries_ = stale_ = 0;
        for (std::uint32_t c = 0; c < count(); c++) {
            if (clauses_[c].stands) watch(c);
        }
    }

    // When nothing is propagated any more.
    void free_watches() {
        for (auto& lists : watches_) lists = {};
    }

    // Forward: attaches a clause under the values so far, which stay, and
    // propagates all that follows. True at a conflict.
    bool attach_forward(std::uint32_t c) {
        Literal* first = begin(c);
        std::uint32_t open = 0;  // literals that are not false, moved to the front
        for (std::uint32_t i = 0; i < clauses_[c].size; i++) {
            if (values_[first[i]] >= 0) std::swap(first[i], first[open++]);
        }
        attach(c);
        if (open == 0) return true;
        if (open == 1 && values_[first[0]] == 0) assign(first[0], c);
        while (forward_ < trail_.size()) {
            std::size_t place = 0;
            if (visit(other, trail_[forward_++], place, false) != none) return true;
        }
        return false;
    }

    // Backward: propagates from the literals assumed to a conflict; returns
    // its clause, or none. The other clauses come in only where the used ones
    // have nothing left to say, and only one literal at a time.
    std::uint32_t find_conflict() {
        std::size_t used_unit = 0, other_unit = 0;
        std::size_t used_next = 0, other_next = 0, other_place = 0;
        for (;;) {
            std::uint32_t conflict = none;
            if (used_unit < units_[used].size()) {
                conflict = take_unit(used, used_unit);
            } else if (used_next < trail_.size()) {
                std::size_t place = 0;
                conflict = visit(used, trail_[used_next++], place, false);
            } else if (other_unit < units_[other].size()) {
                conflict = take_unit(other, other_unit);
            } else if (other_next < trail_.size()) {
                const Literal literal = trail_[other_next];
                conflict = visit(other, literal, other_place, true);
                if (other_place >= watches_[other][complement(literal)].size()) {
                    other_next++;
                    other_place = 0;
                }
            } else {
                return none;
            }
            if (conflict != none) return conflict;
        }
    }

  private:
    // Eight bytes, since a long proof has millions of them.
    struct Clause {
        std::uint32_t start;  // of its literals
        std::uint32_t size : 30;
        bool stands : 1;
        std::uint32_t kind : 1;
        Clause() : start(0), size(0), stands(false), kind(other) {}
    };
    static_assert(sizeof(Clause) == 8);

    // A clause in the list of a literal that it watches. Where the second
    // literal is true the clause need not be looked at.
    struct Watch {
        std::uint32_t clause;
        Literal second;
    };

    void assign(Literal literal, std::uint32_t reason) {
        values_[literal] = 1;
        values_[complement(literal)] = -1;
        reasons_[variable(literal)] = reason;
        trail_.push_back(literal);
    }

    void watch(std::uint32_t c) {
        const Clause& clause = clauses_[c];
        const Literal* literal = begin(c);
        if (clause.size == 1) units_[clause.kind].push_back(c);
        if (clause.size < 2) return;
        watches_[clause.kind][literal[0]].push_back({c, literal[1]});
        watches_[clause.kind][literal[1]].push_back({c, literal[0]});
        entries_ += 2;
    }

    // The two entries that a clause had until now are stale.
    void leave(std::uint32_t c) {
        if (clauses_[c].size < 2) return;
        stale_ += 2;
        if (stale_ < values_.size() || stale_ < entries_ / 2) return;
        for (unsigned kind : {used, other}) {
            for (auto& list : watches_[kind]) {
                const auto is_stale = [&](const Watch& w) { return stale(w.clause, Kind(kind)); };
                list.erase(std::remove_if(list.begin(), list.end(), is_stale), list.end());
            }
        }
        entries_ -= stale_;
        stale_ = 0;
    }

    bool stale(std::uint32_t c, Kind kind) const {
        return !clauses_[c].stands || clauses_[c].kind != kind;
    }

    // The unit clause at a place of its list, which goes on to the next.
    std::uint32_t take_unit(Kind kind, std::size_t& place) {
        auto& units = units_[kind];
        const std::uint32_t c = units[place];
        if (stale(c, kind)) {
            units[place] = units.back();
            units.pop_back();
            return none;
        }
        place++;
        const Literal literal = *begin(c);
        if (values_[literal] < 0) return c;
        if (values_[literal] == 0) assign(literal, c);
        return none;
    }

    // Looks at the clauses that watch the complement of a literal which has
    // become true, from `place` on in their list: moves the watch to a literal
    // that is not false, or makes the last one true, or returns the conflict.
    // With `one` it returns after the first literal that it makes true.
    std::uint32_t visit(Kind kind, Literal literal, std::size_t& place, bool one) {
        const Literal gone = complement(literal);
        auto& list = watches_[kind][gone];
        const auto drop = [&] {
            list[place] = list.back();
            list.pop_back();
        };
        while (place < list.size()) {
            Watch& watch = list[place];
            if (values_[watch.second] > 0) {
                place++;
                continue;
            }
            const std::uint32_t c = watch.clause;
            if (stale(c, kind)) {
                drop();
                entries_--;
                stale_--;
                continue;
            }
            Literal* const first = begin(c);
            if (first[0] == gone) std::swap(first[0], first[1]);
            const Literal second = watch.second = first[0];
            if (values_[second] > 0) {
                place++;
                continue;
            }
            Literal* const last = end(c);
            Literal* free = first + 2;
            while (free < last && values_[*free] < 0) free++;
            if (free < last) {
                std::swap(first[1], *free);
                watches_[kind][first[1]].push_back({c, second});
                drop();
                continue;
            }
            place++;
            if (values_[second] < 0) return c;
            assign(second, c);
            if (one) return none;
        }
        return none;
    }

    std::vector<Literal> literals_;
    std::vector<Clause> clauses_;
    std::vector<std::vector<Watch>> watches_[2];
    std::vector<std::uint32_t> units_[2];
    std::size_t entries_ = 0;          // in the lists of watched literals
    std::size_t stale_ = 0;            // of them, those to be dropped
    std::vector<std::int8_t> values_;  // 1 true, -1 false, 0 neither
    std::vector<std::uint32_t> reasons_;
    std::vector<Literal> trail_;
    std::size_t forward_ = 0;
};

}  // namespace lrat

#endif
