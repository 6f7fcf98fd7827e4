// Pairs of hints that many lines share.
//
// Where a hint makes a literal true that only one other hint of the line needs,
// the two say no more than one clause does, their resolvent on that literal. A
// pair that is found in many lines is therefore written once, as a line of its
// own with these two hints, and each of the lines then has one hint less. This
// is done a few times while it pays, with pairs of new lines too, so that longer
// runs of hints come together.
//
// The resolvent has no variable twice: all its literals but one, or all, were
// false when the second hint was followed.
#ifndef NORDKELCH_LRAT_PAIRS_HPP
#define NORDKELCH_LRAT_PAIRS_HPP

#include <algorithm>
#include <cstdint>
#include <unordered_map>
#include <utility>
#include <vector>

#include "clauses.hpp"
#include "files.hpp"
#include "refutation.hpp"

namespace lrat {

class Pairs {
  public:
    Pairs(Refutation&& refutation, Progress& progress)
        : refutation_(std::move(refutation)),
          progress_(progress),
          follower_(refutation_.formula()),
          needs_(std::size_t(refutation_.formula().last_variable) + 1) {}

    // One round; false where no pair pays.
    bool share() {
        count_all();
        if (pairs_.empty()) return false;
        // a hint is in one pair at most, so not every pair is taken as often
        // as it is found
        count_taken();
        if (pairs_.empty()) return false;
        replace();
        return true;
    }

    // The lines, each new one before the first that has it as a hint.
    Refutation result() const { return refutation_.in_order(order()); }

  private:
    // Two hints of a line, by their places.
    struct Place {
        std::uint32_t first, second;
        Literal literal;  // that the first makes true, for the second alone
    };
    struct Pair {
        std::uint32_t count = 0;
        std::uint32_t line = none;  // once it is written
    };
    // How many hints of a line need a variable's value, and one of them.
    struct Need {
        std::uint32_t count = 0;
        std::uint32_t place = 0;
    };

    std::uint64_t key(std::uint32_t line, const Place& place) const {
        const std::uint32_t* hints = refutation_.hints_begin(line);
        return std::uint64_t(hints[place.first]) << 32 | hints[place.second];
    }

    // The pairs of a line.
    void find(std::uint32_t line) {
        progress_.tell("sharing pairs of hints", line, refutation_.line_count());
        found_.clear();
        const std::uint32_t* hints = refutation_.hints_begin(line);
        const std::uint32_t count = std::uint32_t(refutation_.hints_end(line) - hints);
        if (count < 3) return;
        const std::vector<Literal>& set = follower_.literals_set(refutation_, line);
        for (std::uint32_t i = 0; i < count; i++) {
            for (const Literal* at = refutation_.begin(hints[i]); at != refutation_.end(hints[i]);
                 at++) {
                if (*at == set[i]) continue;
                Need& need = needs_[variable(*at)];
                need.count++;
                need.place = i;
            }
        }
        for (std::uint32_t i = 0; i + 1 < count; i++) {
            const Need& need = needs_[variable(set[i])];
            if (need.count == 1) found_.push_back({i, need.place, set[i]});
        }
        for (std::uint32_t i = 0; i < count; i++) {
            for (const Literal* at = refutation_.begin(hints[i]); at != refutation_.end(hints[i]);
                 at++)
                needs_[variable(*at)].count = 0;
        }
    }

    // Of the pairs found in a line, those that are to be replaced: the most
    // frequent first, and no hint twice.
    void choose(std::uint32_t line) {
        find(line);
        ranked_.clear();
        for (const Place& place : found_) {
            const auto pair = pairs_.find(key(line, place));
            if (pair != pairs_.end()) ranked_.push_back({pair->second.count, place});
        }
        std::stable_sort(ranked_.begin(), ranked_.end(),
                         [](const auto& a, const auto& b) { return a.first > b.first; });
        const std::size_t count =
            std::size_t(refutation_.hints_end(line) - refutation_.hints_begin(line));
        taken_.assign(count, false);
        found_.clear();
        for (const auto& [frequency, place] : ranked_) {
            if (taken_[place.first] || taken_[place.second]) continue;
            taken_[place.first] = taken_[place.second] = true;
            found_.push_back(place);
        }
    }

    // The pairs of all lines that are frequent enough to pay.
    void count_all() {
        std::vector<std::uint64_t> keys;
        for (std::uint32_t line = 0; line < refutation_.line_count(); line++) {
            find(line);
            for (const Place& place : found_) keys.push_back(key(line, place));
        }
        std::sort(keys.begin(), keys.end());
        pairs_.clear();
        for (std::size_t i = 0, next = 0; i < keys.size(); i = next) {
            while (next < keys.size() && keys[next] == keys[i]) next++;
            if (pays(keys[i], next - i)) pairs_[keys[i]].count = std::uint32_t(next - i);
        }
    }

    void count_taken() {
        std::unordered_map<std::uint64_t, std::uint32_t> taken;
        for (std::uint32_t line = 0; line < refutation_.line_count(); line++) {
            choose(line);
            for (const Place& place : found_) taken[key(line, place)]++;
        }
        for (auto pair = pairs_.begin(); pair != pairs_.end();) {
            const auto found = taken.find(pair->first);
            if (found != taken.end() && pays(pair->first, found->second)) {
                ++pair;
            } else {
                pair = pairs_.erase(pair);
            }
        }
    }

    // Whether a line for a pair is shorter than the hints that it saves. Ids
    // have six bytes here, with their space, and literals five.
    bool pays(std::uint64_t pair, std::size_t count) const {
        const std::uint32_t first = std::uint32_t(pair >> 32), second = std::uint32_t(pair);
        const std::size_t literals =
            std::size_t(refutation_.end(first) - refutation_.begin(first)) +
            std::size_t(refutation_.end(second) - refutation_.begin(second)) - 2;
        return 6 * count > 3 * 6 + 4 + 5 * literals;
    }

    void replace() {
        const std::uint32_t count = refutation_.line_count();
        Refutation result(refutation_.formula());
        std::vector<Literal> literals;
        std::vector<std::uint32_t> hints;
        Refutation added(refutation_.formula());
        for (std::uint32_t line = 0; line < count; line++) {
            choose(line);
            hints.assign(refutation_.hints_begin(line), refutation_.hints_end(line));
            for (const Place& place : found_) {
                Pair& pair = pairs_[key(line, place)];
                if (pair.line == none) {
                    pair.line = refutation_.file_count() + count + added.line_count();
                    added.add_line(
                        resolvent(hints[place.first], hints[place.second], place.literal),
                        {hints[place.first], hints[place.second]});
                }
                hints[place.first] = none;
                hints[place.second] = pair.line;
            }
            hints.erase(std::remove(hints.begin(), hints.end(), none), hints.end());
            literals.assign(refutation_.lines().begin(line), refutation_.lines().end(line));
            result.add_line(literals, hints);
        }
        result.append(added);
        refutation_ = std::move(result);
    }

    std::vector<Literal> resolvent(std::uint32_t first, std::uint32_t second, Literal literal) {
        std::vector<Literal> result(refutation_.begin(first), refutation_.end(first));
        result.insert(result.end(), refutation_.begin(second), refutation_.end(second));
        std::sort(result.begin(), result.end());
        result.erase(std::unique(result.begin(), result.end()), result.end());
        const auto on = [literal](Literal l) { return variable(l) == variable(literal); };
        result.erase(std::remove_if(result.begin(), result.end(), on), result.end());
        return result;
    }

    // Each line after the new ones that it needs and that are not placed yet.
    std::vector<std::uint32_t> order() const {
        std::vector<bool> placed(refutation_.line_count(), false);
        std::vector<std::uint32_t> order, open;
        for (std::uint32_t line = 0; line < refutation_.line_count(); line++) {
            open.assign(1, line);
            while (!open.empty()) {
                const std::uint32_t next = open.back();
                const std::size_t before = open.size();
                if (!placed[next]) {
                    for (const std::uint32_t* at = refutation_.hints_begin(next);
                         at != refutation_.hints_end(next); at++) {
                        const std::uint32_t hint = *at - refutation_.file_count();
                        if (*at >= refutation_.file_count() && !placed[hint]) open.push_back(hint);
                    }
                }
                if (open.size() > before) continue;
                if (!placed[next]) order.push_back(next);
                placed[next] = true;
                open.pop_back();
            }
        }
        return order;
    }

    Refutation refutation_;
    Progress& progress_;
    Follower follower_;
    std::vector<Need> needs_;
    std::vector<Place> found_;
    std::vector<std::pair<std::uint32_t, Place>> ranked_;
    std::vector<bool> taken_;
    std::unordered_map<std::uint64_t, Pair> pairs_;
};

// A few rounds: each finds less than the one before it.
inline Refutation with_shared_pairs(Refutation&& refutation, Progress& progress) {
    Pairs pairs(std::move(refutation), progress);
    for (unsigned round = 0; round < 3 && pairs.share(); round++) {
    }
    return pairs.result();
}

}  // namespace lrat

#endif
