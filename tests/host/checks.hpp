// What the comparisons of this folder share: random numbers from a fixed seed,
// checks counted in groups, requests of any kind, and a request in words.
#pragma once

#include <cstddef>
#include <cstdint>
#include <cstdio>
#include <string>

#include "../second/clauses.hpp"

namespace {

using second::Request;

// ---------------------------------------------------------------------------
// Pseudo-random numbers from a fixed seed (xorshift64*)
// ---------------------------------------------------------------------------

struct Random {
    std::uint64_t state;
    explicit Random(std::uint64_t seed) : state(seed * 2 + 0x9E3779B97F4A7C15u) {}
    std::uint64_t next() {
        state ^= state >> 12;
        state ^= state << 25;
        state ^= state >> 27;
        return state * 0x2545F4914F6CDD1Du;
    }
    // A number from 0 to count - 1.
    std::size_t below(std::size_t count) { return std::size_t((next() >> 16) % count); }
};

// ---------------------------------------------------------------------------
// Groups of checks
// ---------------------------------------------------------------------------

unsigned groups_passed = 0;
unsigned groups_failed = 0;
unsigned long checks_made = 0;

// One group. It keeps its first fault and counts the others.
class Group {
  public:
    explicit Group(const std::string& name) : name_(name) {}

    void check(bool good, const std::string& request, const std::string& what) {
        checks_made++;
        if (good) return;
        if (faults_ == 0) first_ = request + ": " + what;
        faults_++;
    }

    // Prints the line of a failed group.
    void finish() {
        if (faults_ == 0) {
            groups_passed++;
            return;
        }
        groups_failed++;
        std::printf("FAILED %s: %s (%lu faults)\n", name_.c_str(), first_.c_str(), faults_);
    }

  private:
    std::string name_;
    std::string first_;
    unsigned long faults_ = 0;
};

// A text that can be printed in one line; the middle of a long one is left out.
[[maybe_unused]] std::string shown(const std::string& text) {
    if (text.size() > 600) {
        return shown(text.substr(0, 200)) + " ... " + shown(text.substr(text.size() - 200));
    }
    std::string all = "\"";
    for (char c : text) {
        if (c == '\n') {
            all += "\\n";
        } else if (c < ' ' || c > '~') {
            all += "\\" + std::to_string(int(std::uint8_t(c))) + ".";
        } else {
            all += c;
        }
    }
    return all + "\"";
}

// Any request as numbers.
[[maybe_unused]] std::string numbers_of(const Request& q) {
    return "n=" + std::to_string(q.n) + " table=" + std::to_string(q.table) +
           " free=" + std::to_string(q.free) + " r=" + std::to_string(q.r) +
           " M=" + std::to_string(q.m);
}

// The table of a good request as characters, row 0 first.
[[maybe_unused]] std::string table_text(const Request& q) {
    std::string text;
    for (unsigned row = 0; row < (1u << q.n); row++) {
        const second::Row kind = second::row_of(q, row);
        text += kind == second::Row::on ? '1' : kind == second::Row::off ? '0' : '-';
    }
    return text;
}

// A good request as its line, without the newline.
[[maybe_unused]] std::string line_of(const Request& q) {
    return std::to_string(q.n) + " " + table_text(q) + " " + std::to_string(q.r) + " " +
           std::to_string(q.m);
}

// ---------------------------------------------------------------------------
// Tables
// ---------------------------------------------------------------------------

// How many tables of 0, 1 and - there are for n inputs.
[[maybe_unused]] unsigned tables_with_free(unsigned n) {
    unsigned count = 1;
    for (unsigned row = 0; row < (1u << n); row++) count *= 3;
    return count;
}

// Gives a request the table of this number: a digit to base 3 for each row.
[[maybe_unused]] void set_table(Request& q, unsigned number) {
    q.table = 0;
    q.free = 0;
    for (unsigned row = 0; row < (1u << q.n); row++) {
        if (number % 3 == 1) q.table |= 1u << row;
        if (number % 3 == 2) q.free |= 1u << row;
        number /= 3;
    }
}

// Any rows of n inputs, as bits.
[[maybe_unused]] unsigned any_rows(Random& random, unsigned n) {
    return unsigned(random.below(std::size_t(1) << (1u << n)));
}

// Any good request of n inputs, r switches and bound m: any table; in two of
// three cases some rows are free, in some of these all.
[[maybe_unused]] Request any_request(Random& random, unsigned n, unsigned r, unsigned m) {
    Request q = {n, any_rows(random, n), r, m};
    switch (random.below(12)) {
        case 0:
            q.free = (1u << (1u << n)) - 1;
            break;
        case 1:
        case 2:
        case 3:
            q.free = 1u << random.below(std::size_t(1) << n);
            break;
        case 4:
        case 5:
        case 6:
        case 7:
            q.free = any_rows(random, n);
            break;
        default:
            break;
    }
    q.table &= ~q.free;
    return q;
}

// Prints the counts; the exit status is 0 only if no group failed.
int counts() {
    std::printf("%lu checks\n", checks_made);
    std::printf("%u passed, %u failed\n", groups_passed, groups_failed);
    return groups_failed == 0 ? 0 : 1;
}

}  // namespace
