// Slices lent to the library: how long they are, what they hold before a call,
// and what a call has left in them and around them.
#pragma once

#include <algorithm>
#include <cstddef>
#include <cstdint>
#include <string>
#include <vector>

#include "../second/refutations.hpp"
#include "checks.hpp"

namespace {

using second::Slices;

struct Lengths {
    std::size_t literals;
    std::size_t pairs;
    std::size_t added;
    std::size_t values;
};

// The lengths that are just enough, with places for some added clauses: three
// entries for the record of each. A refused request has none.
inline Lengths exact_lengths(const Request& q, std::size_t additions) {
    unsigned V = 0, C = 0, T = 0;
    if (second::refusal(q) != 0) return {0, 0, 3 * additions, 0};
    second::counts(q, V, C, T);
    return {T, 2 * std::size_t(C), 3 * additions, std::size_t(V) + 1};
}

// What a slice holds before the call: random bits, small numbers, or all 0.
template <typename Entry>
std::vector<Entry> any_content(Random& random, std::size_t length, std::size_t small) {
    const std::size_t kind = random.below(5);
    std::vector<Entry> all(length, Entry(0));
    if (kind == 0) return all;
    for (Entry& entry : all) {
        const std::uint64_t bits = random.next() >> 16;
        entry = kind < 3 ? Entry(bits) : Entry(bits % small);
    }
    return all;
}

inline Slices any_slices(Random& random, const Lengths& lengths, std::size_t text_size) {
    return {any_content<std::int32_t>(random, lengths.literals, 20),
            any_content<std::uint32_t>(random, lengths.pairs, 20),
            any_content<std::uint32_t>(random, lengths.added, text_size / 2 + 2),
            any_content<std::uint8_t>(random, lengths.values, 3)};
}

// A slice inside a larger array. The entries around it must stand.
template <typename Entry>
class Lent {
  public:
    Lent(Random& random, const std::vector<Entry>& slice)
        : length_(slice.size()), all_(2 * margin) {
        for (Entry& entry : all_) entry = Entry(random.next() >> 24);
        edges_ = all_;
        all_.insert(all_.begin() + margin, slice.begin(), slice.end());
    }

    Entry* data() { return all_.data() + margin; }
    std::size_t length() const { return length_; }
    std::vector<Entry> slice() const { return {all_.begin() + margin, all_.end() - margin}; }

    bool edges_stand() const {
        return std::equal(edges_.begin(), edges_.begin() + margin, all_.begin()) &&
               std::equal(edges_.begin() + margin, edges_.end(), all_.end() - margin);
    }

  private:
    static constexpr std::ptrdiff_t margin = 8;
    std::size_t length_;
    std::vector<Entry> all_;
    std::vector<Entry> edges_;
};

// The four slices of a check.
struct LentSlices {
    Lent<std::int32_t> literals;
    Lent<std::uint32_t> pairs;
    Lent<std::uint32_t> added;
    Lent<std::uint8_t> values;

    LentSlices(Random& random, const Slices& slices)
        : literals(random, slices.literals),
          pairs(random, slices.pairs),
          added(random, slices.added),
          values(random, slices.values) {}

    Slices after() const {
        return {literals.slice(), pairs.slice(), added.slice(), values.slice()};
    }

    bool edges_stand() const {
        return literals.edges_stand() && pairs.edges_stand() && added.edges_stand() &&
               values.edges_stand();
    }
};

// Where two slices of one length differ first; nothing when they are equal.
template <typename Entry>
std::string difference(const std::string& name, const std::vector<Entry>& have,
                       const std::vector<Entry>& want) {
    for (std::size_t i = 0; i < want.size(); i++) {
        if (have[i] == want[i]) continue;
        return ", " + name + "[" + std::to_string(i) + "] is " + std::to_string(have[i]) +
               ", not " + std::to_string(want[i]);
    }
    return "";
}

// The same for all four and what stands around them.
inline std::string differences(const LentSlices& lent, const Slices& want) {
    const Slices have = lent.after();
    std::string all = difference("literals", have.literals, want.literals) +
                      difference("pairs", have.pairs, want.pairs) +
                      difference("added", have.added, want.added) +
                      difference("values", have.values, want.values);
    if (!lent.edges_stand()) all += ", an entry outside a slice is written";
    return all;
}

inline std::string lengths_of(const Slices& slices) {
    return " lengths " + std::to_string(slices.literals.size()) + " " +
           std::to_string(slices.pairs.size()) + " " + std::to_string(slices.added.size()) + " " +
           std::to_string(slices.values.size());
}

}  // namespace
