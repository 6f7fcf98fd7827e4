// A second implementation of labels from any X values, for tests only.
//
// It was written from document 02's U3 and from document 01's terminals and X
// variables alone, without a look at the proved code, and by another method than
// the search that U3 asks for: every terminal starts in a set of its own, and
// each pair whose X is true merges two sets. Each part names, in quotes, the
// sentence of a document that it follows. Where one can be read in two ways,
// docs/DECISIONS.md has the reading that is followed.
#pragma once

#include <array>
#include <cstddef>
#include <cstdint>
#include <vector>

namespace second {

// Labels come in an array of this many: "N = 2r+2", and "r is 0 to 7 switches".
constexpr std::size_t most_terminals = 16;

using Labels = std::array<unsigned, most_terminals>;

// "P = N(N−1)/2": how many pairs there are. N is at most 16.
inline std::size_t pairs_of(std::size_t N) { return N == 0 ? 0 : N * (N - 1) / 2; }

// Whether X(i,j) is true, i<j. "X(i,j), i<j, pairs in order of i then j:
// i·(2N−i−1)/2 + j−i." The first number is 1, the first value that of number 1.
// 1 is true, and any other value is not.
inline bool X_is_true(std::size_t N, const std::vector<std::uint8_t>& values, std::size_t i,
                      std::size_t j) {
    const std::size_t number = i * (2 * N - i - 1) / 2 + j - i;
    return values[number - 1] == 1;
}

// "over any X values, those that 12 refuses too, a terminal's label is the
// lowest terminal that a chain of true X joins to it". The chain of no X joins
// a terminal to itself. After each pair, all of a set have its lowest terminal
// as their label; of two sets that merge, the lower label is the lowest terminal
// of both. Labels past N are 0, and all are 0 where N is above 16.
inline Labels labels_of_chains(std::size_t N, const std::vector<std::uint8_t>& values) {
    Labels labels{};
    if (N > most_terminals) return labels;
    for (std::size_t i = 0; i < N; i++) labels[i] = unsigned(i);
    for (std::size_t i = 0; i < N; i++) {
        for (std::size_t j = i + 1; j < N; j++) {
            if (!X_is_true(N, values, i, j)) continue;
            const unsigned one = labels[i], other = labels[j];
            const unsigned low = one < other ? one : other;
            for (std::size_t t = 0; t < N; t++) {
                if (labels[t] == one || labels[t] == other) labels[t] = low;
            }
        }
    }
    return labels;
}

}  // namespace second
