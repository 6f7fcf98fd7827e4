// What storing all clauses costs: n = 4, r = M = 7, with all rows on and with all rows off. The
// proved library stores them where it checks a refutation; the text is empty, so that it does
// little else. Against it stands plain C++ that stores the same clauses by nested loops. Best of 51
// each.
//
//   c++ -std=c++17 -O2 -o store store.cpp LIBRARY.a
//
//   store                      the times, and whether both store the same
//   store SIDE TABLE COUNT     stores COUNT times, SIDE proved or plain, TABLE on or off: to count
//   instructions by callgrind, as the
//                              difference between COUNT 1 and 0
//
// The exit status is 0 only if both store the same clauses.

#include <cstdint>
#include <cstdio>
#include <cstdlib>
#include <cstring>
#include <vector>

#include "nordkelch.h"
#include "plain_clauses.hpp"
#include "timing.hpp"

namespace {

// The request, kept where the compiler has to read it anew.
volatile int n = 4, r = 7, m = 7;

struct Slices {
    std::vector<std::int32_t> literals = std::vector<std::int32_t>(100000);
    std::vector<std::uint32_t> pairs = std::vector<std::uint32_t>(60000);
};

// ---------------------------------------------------------------------------
// The plain function
// ---------------------------------------------------------------------------

struct Out {
    std::int32_t* literals;
    std::uint32_t* pairs;
    std::uint32_t at = 0, start = 0;

    void counts(int, int) {}
    void literal(int x) { literals[at++] = x; }
    void end() {
        *pairs++ = start;
        *pairs++ = at - start;
        start = at;
    }
};

void plain_store(int table, Slices& to) {
    plain::Clauses<Out> clauses(n, table, 0, r, m, Out{to.literals.data(), to.pairs.data()});
    clauses.all();
}

// ---------------------------------------------------------------------------
// The proved one
// ---------------------------------------------------------------------------

std::uint8_t values[65536];

void proved_store(int table, Slices& to) {
    const std::uint8_t text = 0;
    std::uint32_t added = 0, count = 0;
    nk_check_refutation(std::uint8_t(n), std::uint16_t(table), 0, std::uint8_t(r), std::uint8_t(m),
                        &text, 0, to.literals.data(), to.literals.size(), to.pairs.data(),
                        to.pairs.size(), &added, 0, values, sizeof values, &count);
}

int table_of(const char* word) { return std::strcmp(word, "on") == 0 ? 0xFFFF : 0; }

}  // namespace

int main(int argc, char** argv) {
    Slices proved, plain;
    if (argc == 4) {
        const int table = table_of(argv[2]);
        const bool ours = std::strcmp(argv[1], "proved") == 0;
        for (int i = std::atoi(argv[3]); i > 0; i--)
            ours ? proved_store(table, proved) : plain_store(table, plain);
        return 0;
    }
    bool same = true;
    for (const char* word : {"on", "off"}) {
        const int table = table_of(word);
        double ours = 1e9, theirs = 1e9;
        for (int run = 0; run < 51; run++) {
            ours = std::min(ours, milliseconds([&] { proved_store(table, proved); }));
            theirs = std::min(theirs, milliseconds([&] { plain_store(table, plain); }));
        }
        same = same && proved.literals == plain.literals && proved.pairs == plain.pairs;
        std::printf("all rows %-3s  proved %7.3f ms  plain %7.3f ms  ratio %.2f\n", word, ours,
                    theirs, ours / theirs);
    }
    if (!same) std::puts("the clauses differ");
    return same ? 0 : 1;
}
