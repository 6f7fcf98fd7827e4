// Long refutations made from a real one, for tests and benchmarks: its added
// clauses are added again and again under new ids, each time with hints that
// name a copy of the clause that was named at first. The new ids follow one
// another, or have gaps.
#pragma once

#include <cstddef>
#include <cstdint>
#include <string>
#include <vector>

#include "../second/refutations.hpp"
#include "gapped.hpp"

class LongRefutation {
  public:
    // Which copy of a clause a hint names: the one of its own round, and then
    // the copies of the round before are deleted as soon as there are new ones;
    // or one of any round so far, far apart in the text, and none is deleted.
    enum class Hints { near, far };

    // The lines of a refutation of the request, whose ids follow one another. Its
    // deletions are left out.
    LongRefutation(const second::Request& q, const std::string& refutation) {
        unsigned V = 0, T = 0;
        second::counts(q, V, clauses_, T);
        for (const second::Line& text : second::lines_of(refutation)) {
            second::RefutationLine line;
            if (!second::refutation_line_of(text, line)) break;
            if (line.deletes) continue;
            if (line.literals.empty()) {
                last_ = line;
                break;
            }
            additions_.push_back(line);
        }
    }

    // A refutation of at most so many bytes, and not much fewer. It has no
    // empty clause where one round is longer than that.
    std::string text(std::size_t most, Hints hints, Gaps gaps = Gaps::none) const {
        Writer writer(*this, hints, gaps);
        const std::size_t end = 16 + 12 * last_.ids.size();
        while (writer.text.size() + end < most) {
            const std::string line = writer.next_lines();
            if (writer.text.size() + line.size() + end >= most) break;
            writer.text += line;
            writer.added++;
        }
        if (writer.added >= additions_.size()) writer.text += writer.last_line();
        return writer.text;
    }

  private:
    static constexpr std::size_t deleted_at_once = 8;

    struct Writer {
        const LongRefutation& from;
        Hints hints;
        GappedIds ids;
        std::string text;
        std::size_t added = 0;
        std::uint64_t state = 1;

        Writer(const LongRefutation& from_, Hints hints_, Gaps gaps)
            : from(from_), hints(hints_), ids(from_.clauses_, gaps) {}

        // The id of the clause number k of all that are added.
        std::string id(std::size_t k) { return std::to_string(ids.id(k)); }

        // The line that adds the next clause; before it, now and then, a line
        // that deletes.
        std::string next_lines() {
            const std::size_t count = from.additions_.size(), place = added % count;
            const second::RefutationLine& line = from.additions_[place];
            std::string next;
            if (hints == Hints::near && added >= count && place > 0 && place % deleted_at_once == 0) {
                next += id(added) + " d";
                for (std::size_t k = deleted_at_once; k > 0; k--) next += " " + id(added - count - k);
                next += " 0\n";
            }
            next += id(added);
            for (int literal : line.literals) next += " " + std::to_string(literal);
            next += " 0";
            for (int hint : line.ids) next += " " + hint_of(hint, added / count);
            return next + " 0\n";
        }

        // The empty clause, by the newest copies.
        std::string last_line() {
            const std::size_t count = from.additions_.size(), round = added / count;
            std::string next = id(added) + " 0";
            for (int hint : from.last_.ids) {
                if (unsigned(hint) <= from.clauses_) {
                    next += " " + std::to_string(hint);
                    continue;
                }
                const std::size_t place = unsigned(hint) - from.clauses_ - 1;
                next += " " + id((place < added % count ? round : round - 1) * count + place);
            }
            return next + " 0\n";
        }

        std::string hint_of(int hint, std::size_t round) {
            if (unsigned(hint) <= from.clauses_) return std::to_string(hint);
            if (hints == Hints::far) {
                state = state * 6364136223846793005u + 1442695040888963407u;
                round = std::size_t(state >> 33) % (round + 1);
            }
            return id(round * from.additions_.size() + unsigned(hint) - from.clauses_ - 1);
        }
    };

    unsigned clauses_ = 0;
    std::vector<second::RefutationLine> additions_;
    second::RefutationLine last_;
};
