// A refutation: the lines that are to be written, and what makes them shorter.
//
// A line has its literals and its hints, which name clauses of the file and
// earlier lines. Ids go on from the clause file's last, one by one, unless each
// line was given an id of its own. No deletions are written: the check's memory
// and time do not depend on them.
//
// Trimming goes backward over a proof, and a line may lose literals after a
// later line was given its hints. Those hints stay right, since a hint that was
// unit or the conflict still is one or the other when it loses literals; but
// the conflict may come earlier, and then hints and literals are left over. So
// the lines are gone through once more from the first to the last, with the
// hints as they are, and only what the conflict rests on is kept. A line with a
// single hint is then a copy of that clause, and goes.
#ifndef NORDKELCH_LRAT_REFUTATION_HPP
#define NORDKELCH_LRAT_REFUTATION_HPP

#include <algorithm>
#include <cstdint>
#include <numeric>
#include <vector>

#include "clauses.hpp"
#include "files.hpp"

namespace lrat {

inline std::size_t digits(std::uint64_t number) {
    std::size_t count = 1;
    for (; number >= 10; number /= 10) count++;
    return count;
}

class Refutation {
  public:
    explicit Refutation(const Formula& formula) : formula_(&formula) {}

    const Formula& formula() const { return *formula_; }
    std::uint32_t file_count() const { return formula_->clauses.count(); }
    std::uint32_t line_count() const { return lines_.count(); }

    // A clause of the file, or from file_count() on a line.
    const Literal* begin(std::uint32_t c) const {
        return c < file_count() ? formula_->clauses.begin(c) : lines_.begin(c - file_count());
    }
    const Literal* end(std::uint32_t c) const {
        return c < file_count() ? formula_->clauses.end(c) : lines_.end(c - file_count());
    }

    // Of a line, from 0.
    const ClauseList& lines() const { return lines_; }
    const std::uint32_t* hints_begin(std::uint32_t line) const { return hints_.begin(line); }
    const std::uint32_t* hints_end(std::uint32_t line) const { return hints_.end(line); }

    void reserve(std::size_t lines, std::size_t literals, std::size_t hints) {
        lines_.reserve(lines, literals);
        hints_.reserve(lines, hints);
    }

    void add_line(const std::vector<Literal>& literals, const std::vector<std::uint32_t>& hints) {
        lines_.add(literals.data(), literals.data() + literals.size());
        hints_.add(hints.data(), hints.data() + hints.size());
    }

    // Gives the line that was added last an id of its own. All lines have one
    // then, above the clause file's ids, and they rise.
    void give_id(std::uint32_t id) { ids_.push_back(id); }

    std::size_t literal_count() const { return lines_.total(); }

    // The lines of another one, with their hints as they are. Neither has ids
    // of its own.
    void append(const Refutation& other) {
        for (std::uint32_t line = 0; line < other.line_count(); line++) {
            lines_.add(other.lines_.begin(line), other.lines_.end(line));
            hints_.add(other.hints_begin(line), other.hints_end(line));
        }
    }

    // The length of its text in bytes.
    std::size_t bytes() const {
        std::size_t sum = 0;
        for (std::uint32_t line = 0; line < line_count(); line++) {
            sum += digits(id(file_count() + line)) + 5;  // " 0", " 0" and the newline
            for (const Literal* at = lines_.begin(line); at != lines_.end(line); at++)
                sum += 1 + *at % 2 + digits(variable(*at));
            for (const std::uint32_t* at = hints_begin(line); at != hints_end(line); at++)
                sum += 1 + digits(id(*at));
        }
        return sum;
    }

    void write(Output& file) const {
        for (std::uint32_t line = 0; line < line_count(); line++) {
            file.put(std::to_string(id(file_count() + line)));
            for (const Literal* at = lines_.begin(line); at != lines_.end(line); at++)
                file.put_number(number(*at));
            file.put(" 0");
            for (const std::uint32_t* at = hints_begin(line); at != hints_end(line); at++)
                file.put_number(id(*at));
            file.put(" 0\n");
        }
    }

    // Goes over the lines from the first to the last. `edit` is handed the
    // literals and the hints of each, may shorten them, and returns the clause
    // that the line is from now on: none for a line of its own, which is kept.
    template <typename Edit>
    void rewrite(Edit edit) {
        std::vector<std::uint32_t> now(line_count());
        std::vector<Literal> literals;
        std::vector<std::uint32_t> hints;
        ClauseList::Rewriting line_list(lines_), hint_list(hints_);
        std::uint32_t kept = 0;
        for (std::uint32_t line = 0; line < now.size(); line++) {
            line_list.take(literals);
            hint_list.take(hints);
            for (std::uint32_t& hint : hints) {
                if (hint >= file_count()) hint = now[hint - file_count()];
            }
            now[line] = edit(line, literals, hints);
            if (now[line] != none) continue;
            if (!ids_.empty()) ids_[kept] = ids_[line];
            now[line] = file_count() + kept++;
            line_list.put(literals);
            hint_list.put(hints);
        }
        line_list.finish();
        hint_list.finish();
        if (!ids_.empty()) ids_.resize(kept);
    }

    // The lines given, in this order. A hint of each comes before it. The ids
    // go on one by one.
    Refutation in_order(const std::vector<std::uint32_t>& order) const {
        std::vector<std::uint32_t> place(line_count(), none);
        Refutation result(*formula_);
        std::vector<std::uint32_t> hints;
        for (std::uint32_t line : order) {
            hints.assign(hints_begin(line), hints_end(line));
            for (std::uint32_t& hint : hints) {
                if (hint >= file_count()) hint = file_count() + place[hint - file_count()];
            }
            place[line] = result.line_count();
            result.lines_.add(lines_.begin(line), lines_.end(line));
            result.hints_.add(hints.data(), hints.data() + hints.size());
        }
        return result;
    }

    // Which lines the empty clause rests on, with its own.
    std::vector<bool> used_lines() const {
        std::uint32_t last = 0;
        while (lines_.size(last) > 0) last++;
        std::vector<bool> is_used(line_count(), false);
        is_used[last] = true;
        for (std::uint32_t line = last + 1; line-- > 0;) {
            if (!is_used[line]) continue;
            for (const std::uint32_t* at = hints_begin(line); at != hints_end(line); at++) {
                if (*at >= file_count()) is_used[*at - file_count()] = true;
            }
        }
        return is_used;
    }

    // The lines in another order: each as early as its hints allow, and among
    // those of one level the shorter ones first. Checked backward in this
    // order, a line has far more clauses to choose its hints from than in the
    // solver's.
    std::vector<std::uint32_t> order_by_level() const {
        std::vector<std::uint32_t> level(line_count(), 0);
        for (std::uint32_t line = 0; line < line_count(); line++) {
            for (const std::uint32_t* at = hints_begin(line); at != hints_end(line); at++) {
                if (*at < file_count()) continue;
                level[line] = std::max(level[line], level[*at - file_count()] + 1);
            }
        }
        std::vector<std::uint32_t> order(line_count());
        std::iota(order.begin(), order.end(), 0);
        std::stable_sort(order.begin(), order.end(), [&](std::uint32_t a, std::uint32_t b) {
            if (level[a] != level[b]) return level[a] < level[b];
            return lines_.size(a) < lines_.size(b);
        });
        return order;
    }

  private:
    std::uint32_t id(std::uint32_t c) const {
        return c < file_count() || ids_.empty() ? c + 1 : ids_[c - file_count()];
    }

    const Formula* formula_;
    ClauseList lines_;
    ClauseList hints_;
    std::vector<std::uint32_t> ids_;  // of the lines; none where they go on one by one
};

// Follows the hints of lines, one line after another.
class Follower {
  public:
    explicit Follower(const Formula& formula)
        : values_(2 * std::size_t(formula.last_variable) + 2, 0),
          needed_(std::size_t(formula.last_variable) + 1, false) {}

    // The literal that each hint of a line makes true; 0 for the conflict.
    const std::vector<Literal>& literals_set(const Refutation& refutation, std::uint32_t line) {
        literals_.assign(refutation.lines().begin(line), refutation.lines().end(line));
        hints_.assign(refutation.hints_begin(line), refutation.hints_end(line));
        follow(refutation, literals_, hints_);
        clear_values();
        return set_;
    }

    // Keeps of a line's literals and hints what its conflict rests on.
    void shorten(const Refutation& refutation, std::vector<Literal>& literals,
                 std::vector<std::uint32_t>& hints) {
        const std::size_t conflict = follow(refutation, literals, hints);
        kept_.clear();
        take(refutation, hints[conflict]);
        for (std::size_t i = conflict; i-- > 0;) {
            if (set_[i] != 0 && needed_[variable(set_[i])]) take(refutation, hints[i]);
        }
        hints.assign(kept_.rbegin(), kept_.rend());
        const auto is_unneeded = [this](Literal l) { return !needed_[variable(l)]; };
        literals.erase(std::remove_if(literals.begin(), literals.end(), is_unneeded),
                       literals.end());
        clear_values();
        for (std::uint32_t v : needed_variables_) needed_[v] = false;
        needed_variables_.clear();
    }

  private:
    // Returns the place of the hint that is the conflict; set_ has the literal
    // that each hint before it makes true, 0 for one that has nothing to say.
    std::size_t follow(const Refutation& refutation, const std::vector<Literal>& literals,
                       const std::vector<std::uint32_t>& hints) {
        for (Literal literal : literals) assign(complement(literal));
        set_.assign(hints.size(), 0);
        for (std::size_t i = 0; i < hints.size(); i++) {
            Literal open = 0;
            bool satisfied = false;
            const Literal* const end = refutation.end(hints[i]);
            for (const Literal* at = refutation.begin(hints[i]); at != end; at++) {
                if (values_[*at] < 0) continue;
                satisfied = satisfied || values_[*at] > 0 || open != 0;
                open = *at;
            }
            if (satisfied) continue;
            if (open == 0) return i;
            set_[i] = open;
            assign(open);
        }
        stop("hints of a line have no conflict");
    }

    void clear_values() {
        for (Literal literal : trail_) values_[literal] = values_[complement(literal)] = 0;
        trail_.clear();
    }

    void assign(Literal literal) {
        values_[literal] = 1;
        values_[complement(literal)] = -1;
        trail_.push_back(literal);
    }

    void take(const Refutation& refutation, std::uint32_t hint) {
        kept_.push_back(hint);
        for (const Literal* at = refutation.begin(hint); at != refutation.end(hint); at++) {
            if (needed_[variable(*at)]) continue;
            needed_[variable(*at)] = true;
            needed_variables_.push_back(variable(*at));
        }
    }

    std::vector<std::int8_t> values_;
    std::vector<Literal> trail_;
    std::vector<Literal> set_;
    std::vector<bool> needed_;
    std::vector<std::uint32_t> needed_variables_;
    std::vector<std::uint32_t> kept_;
    std::vector<Literal> literals_;
    std::vector<std::uint32_t> hints_;
};

// Shortens the lines; copies go, and lines that nothing rests on.
inline void shorten(Refutation& refutation) {
    Follower follower(refutation.formula());
    refutation.rewrite([&](std::uint32_t, auto& literals, auto& hints) {
        follower.shorten(refutation, literals, hints);
        return hints.size() == 1 && !literals.empty() ? hints[0] : none;
    });
    const std::vector<bool> is_used = refutation.used_lines();
    // nothing names the lines that go, so what they become does not matter
    refutation.rewrite([&](std::uint32_t line, auto&, auto&) { return is_used[line] ? none : 0; });
}

}  // namespace lrat

#endif
