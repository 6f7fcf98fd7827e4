// Trimming: from a proof to the lines of a refutation.
//
// A proof lists clauses, each of which follows from those before it by setting
// its literals false and propagating units to a conflict. A refutation also
// names, for each clause, the clauses that propagate, in order. They are found
// here by checking the proof backward: first forward over the proof, up to
// where propagation alone has a conflict, then from there back to the start.
// Going back, a clause is checked only if a later check used it, so the many
// clauses that the solver learned in vain are never looked at nor written.
// Propagation prefers the clauses that are used already, which keeps their
// number low.
//
// A clause loses those of its literals that its own check did not use. Where the
// clauses of the proof have ids of their own, its line keeps the clause's.
#ifndef NORDKELCH_LRAT_TRIM_HPP
#define NORDKELCH_LRAT_TRIM_HPP

#include <algorithm>
#include <cstdint>
#include <deque>
#include <string>
#include <vector>

#include "clauses.hpp"
#include "files.hpp"
#include "proof.hpp"
#include "refutation.hpp"

namespace lrat {

class Trimmer {
  public:
    // The ids are those that a ProofReader kept, or none.
    Trimmer(const Formula& formula, Clauses& clauses, std::vector<Step>& steps,
            const std::vector<std::uint32_t>& ids, Progress& progress)
        : formula_(formula),
          clauses_(clauses),
          steps_(steps),
          ids_(ids),
          progress_(progress),
          needed_(std::size_t(formula.last_variable) + 1, false) {}

    // Finds the lines; false where their text is longer than this, by
    // what count_bytes knows of it.
    bool run(std::size_t most_bytes) {
        forward();
        clauses_.watch_anew();
        const bool fits = backward(most_bytes);
        clauses_.free_watches();
        return fits;
    }

    // The lines that were found, which are handed over.
    Refutation refutation() {
        const std::uint32_t file_count = formula_.clauses.count();
        std::size_t literal_count = 0;
        for (const Line& line : lines_) {
            literal_count += std::size_t(clauses_.end(line.clause) - clauses_.begin(line.clause));
        }
        Refutation result(formula_);
        result.reserve(lines_.size(), literal_count, hints_.size());
        std::vector<std::uint32_t> place(clauses_.count(), none);
        for (std::uint32_t c = 0; c < file_count; c++) place[c] = c;
        std::vector<Literal> literals;
        std::vector<std::uint32_t> hints;
        for (; !lines_.empty(); lines_.pop_back()) {
            const Line line = lines_.back();
            literals.assign(clauses_.begin(line.clause), clauses_.end(line.clause));
            hints.clear();
            for (; hints_.size() > line.hints; hints_.pop_back())
                hints.push_back(place[hints_.back()]);
            place[line.clause] = file_count + result.line_count();
            result.add_line(literals, hints);
            if (!ids_.empty()) result.give_id(ids_[line.clause - file_count]);
        }
        return result;
    }

  private:
    // A clause that is used, and where its hints start, the last first.
    struct Line {
        std::uint32_t clause;
        std::uint32_t hints;
    };

    // Up to the first conflict of propagation. The steps after it are dropped.
    void forward() {
        for (std::uint32_t c = 0; c < formula_.clauses.count(); c++) {
            if (!clauses_.attach_forward(c)) continue;
            // the file alone has a conflict, without the clauses after this one
            steps_.clear();
            return;
        }
        std::size_t kept = 0;
        for (std::size_t i = 0; i < steps_.size(); i++) {
            progress_.tell("checking forward", i, steps_.size());
            const Step step = steps_[i];
            if (step.deletion && is_reason(step.clause)) continue;
            steps_[kept++] = step;
            if (step.deletion) {
                clauses_.detach(step.clause);
            } else if (clauses_.attach_forward(step.clause)) {
                steps_.erase(steps_.begin() + std::ptrdiff_t(kept), steps_.end());
                return;
            }
        }
        stop("the proof does not lead to a conflict");
    }

    // Solvers delete clauses that have made a literal true for good, and go on
    // using the literal. So such a deletion is passed over.
    bool is_reason(std::uint32_t c) {
        return std::any_of(clauses_.begin(c), clauses_.end(c), [&](Literal literal) {
            return clauses_.value_is_true(literal) && clauses_.reason(literal) == c;
        });
    }

    bool backward(std::size_t most_bytes) {
        explain(clauses_.add(nullptr, nullptr));
        for (std::size_t i = steps_.size(); i-- > 0;) {
            if (bytes_ > most_bytes) return false;
            progress_.tell("checking backward", steps_.size() - i, steps_.size());
            const std::uint32_t c = steps_[i].clause;
            if (steps_[i].deletion) {
                clauses_.attach(c);
            } else {
                clauses_.detach(c);
                if (clauses_.is_used(c)) explain(c);
            }
        }
        return true;
    }

    // Finds the hints of a clause from those that stand, marks them as used,
    // and drops the clause's literals that they do without.
    void explain(std::uint32_t c) {
        for (const Literal* literal = clauses_.begin(c); literal != clauses_.end(c); literal++) {
            clauses_.assume(complement(*literal));
        }
        const std::uint32_t conflict = clauses_.find_conflict();
        if (conflict == none)
            stop("a clause of the proof does not follow by propagation: " + shown(c));

        // From the conflict back along the trail: what was needed of it.
        found_.assign(1, conflict);
        need(conflict);
        const std::vector<Literal>& trail = clauses_.trail();
        for (std::size_t i = trail.size(); i-- > 0;) {
            const std::uint32_t reason = clauses_.reason(trail[i]);
            if (reason == none || !needed_[variable(trail[i])]) continue;
            found_.push_back(reason);
            need(reason);
        }
        Literal* const first = clauses_.begin(c);
        Literal* const last = std::partition(first, clauses_.end(c),
                                             [this](Literal l) { return needed_[variable(l)]; });
        clauses_.cut(c, std::uint32_t(last - first));
        for (std::uint32_t v : needed_variables_) needed_[v] = false;
        needed_variables_.clear();
        clauses_.clear_values();
        add_line(c);
    }

    // The line of a clause whose hints were found, the last first.
    void add_line(std::uint32_t c) {
        if (hints_.size() + found_.size() >= none) stop("the refutation has too many hints");
        lines_.push_back({c, std::uint32_t(hints_.size())});
        hints_.insert(hints_.end(), found_.begin(), found_.end());
        count_bytes(c);
        for (std::uint32_t hint : found_) {
            if (!clauses_.is_used(hint)) clauses_.use(hint);
        }
    }

    // Counts the bytes of a line, so that a text which is far too long is known
    // before all of the proof is checked. The id of an added clause is not known
    // by now, or not looked at, and counts as the first after the file's. A line
    // with one hint is not written.
    void count_bytes(std::uint32_t c) {
        if (found_.size() == 1) return;
        const std::uint32_t first_id = formula_.clauses.count() + 1;
        bytes_ += digits(first_id) + 5;
        for (const Literal* literal = clauses_.begin(c); literal != clauses_.end(c); literal++) {
            bytes_ += 1 + *literal % 2 + digits(variable(*literal));
        }
        for (std::uint32_t hint : found_) bytes_ += 1 + digits(std::min(hint + 1, first_id));
    }

    // Marks a clause's variables as needed.
    void need(std::uint32_t c) {
        for (const Literal* literal = clauses_.begin(c); literal != clauses_.end(c); literal++) {
            if (needed_[variable(*literal)]) continue;
            needed_[variable(*literal)] = true;
            needed_variables_.push_back(variable(*literal));
        }
    }

    std::string shown(std::uint32_t c) {
        std::string text;
        for (const Literal* literal = clauses_.begin(c); literal != clauses_.end(c); literal++) {
            text += std::to_string(number(*literal)) + " ";
        }
        return text + "0";
    }

    const Formula& formula_;
    Clauses& clauses_;
    std::vector<Step>& steps_;
    const std::vector<std::uint32_t>& ids_;
    Progress& progress_;
    std::vector<Line> lines_;
    std::deque<std::uint32_t> hints_;  // grows without being copied
    std::size_t bytes_ = 0;            // of the text, as far as they are known
    std::vector<bool> needed_;
    std::vector<std::uint32_t> needed_variables_;
    std::vector<std::uint32_t> found_;
};

}  // namespace lrat

#endif
