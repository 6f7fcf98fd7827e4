// Refutations whose ids have gaps, for tests and benchmarks: ids that rise and
// leave numbers out, and a refutation's text with its ids made such ones.
#pragma once

#include <cstddef>
#include <cstdint>
#include <string>
#include <unordered_map>
#include <vector>

#include "../second/refutations.hpp"

// Which numbers the ids leave out: none; one number in a hundred; a third of the
// numbers; or long runs of numbers, one before the first id and then, on average,
// one for every 64 ids.
enum class Gaps { none, hundredth, third, rare };

constexpr Gaps all_gaps[] = {Gaps::hundredth, Gaps::third, Gaps::rare};

// A way's name, as the benchmarks take and print it.
inline const char* gaps_name(Gaps gaps) {
    switch (gaps) {
        case Gaps::none: return "none";
        case Gaps::hundredth: return "hundredth";
        case Gaps::third: return "third";
        case Gaps::rare: return "rare";
    }
    return "";
}

// The ids of added clauses, above C. The same seed always gives the same ids.
class GappedIds {
  public:
    GappedIds(std::uint32_t C, Gaps gaps, std::uint64_t seed = 1)
        : last_(C), gaps_(gaps), state_(seed * 2 + 1) {}

    // The id of the clause number k, from 0.
    std::uint32_t id(std::size_t k) {
        while (ids_.size() <= k) {
            last_ += 1 + left_out();
            ids_.push_back(last_);
        }
        return ids_[k];
    }

  private:
    // A number from 0 to count - 1.
    std::uint32_t below(std::uint32_t count) {
        state_ = state_ * 6364136223846793005u + 1442695040888963407u;
        return std::uint32_t(state_ >> 33) % count;
    }

    // How many numbers are left out before the next id.
    std::uint32_t left_out() {
        std::uint32_t count = 0;
        switch (gaps_) {
            case Gaps::none: return 0;
            case Gaps::hundredth:
                while (below(100) == 0) count++;
                return count;
            case Gaps::third:
                while (below(3) == 0) count++;
                return count;
            case Gaps::rare:
                return ids_.empty() || below(64) == 0 ? 100 + below(9900) : 0;
        }
        return 0;
    }

    std::uint32_t last_;
    Gaps gaps_;
    std::uint64_t state_;
    std::vector<std::uint32_t> ids_;
};

// The text of a refutation with other ids: those of its added clauses are made
// ids with such gaps, and so is each hint and each deletion of one, and the id of
// a d line that is one. Ids from 1 to C stay, and so do numbers that no clause
// before has. What comes after a line without the form stays as it is.
inline std::string gapped(const std::string& refutation, std::uint32_t C, Gaps gaps,
                          std::uint64_t seed = 1) {
    GappedIds ids(C, gaps, seed);
    std::unordered_map<int, std::uint32_t> new_ids;
    std::string text;
    const auto word = [&](int id) {
        const auto found = new_ids.find(id);
        return found == new_ids.end() ? std::to_string(id) : std::to_string(found->second);
    };
    std::size_t place = 0;
    for (const second::Line& line_text : second::lines_of(refutation)) {
        second::RefutationLine line;
        if (!second::refutation_line_of(line_text, line)) break;
        place += line_text.text.size() + 1;
        if (!line.deletes && line.id >= 0 && unsigned(line.id) > C) {
            const std::uint32_t next = ids.id(new_ids.size());
            new_ids.emplace(line.id, next);
        }
        text += word(line.id);
        if (line.deletes) text += " d";
        for (int literal : line.literals) text += " " + std::to_string(literal);
        if (!line.deletes) text += " 0";
        for (int id : line.ids) text += " " + word(id);
        text += " 0\n";
    }
    return text + refutation.substr(place);
}
