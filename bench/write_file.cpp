// How long writing the largest file takes: n = 4, all rows on, r = M = 7.
// The proved library's nk_write_file, into a lent buffer of exactly the size that
// nk_file_size gives, against a plain C++ function that prints the same clauses by
// nested loops; and how long the size takes beside writing. Best of 7 each.
//
//   c++ -std=c++17 -O2 -o write_file write_file.cpp LIBRARY.a
//
// The exit status is 0 only if both give the same bytes, as many as the size.

#include <cstdint>
#include <cstdio>
#include <cstring>
#include <vector>

#include "nordkelch.h"
#include "plain_clauses.hpp"
#include "timing.hpp"

namespace {

// ---------------------------------------------------------------------------
// The plain function
// ---------------------------------------------------------------------------

// Appends to a buffer that is known to be long enough.
struct Out {
    char* at;

    void byte(char c) { *at++ = c; }

    void number(unsigned value) {
        char digits[10];
        int count = 0;
        do {
            digits[count++] = char('0' + value % 10);
            value /= 10;
        } while (value != 0);
        while (count > 0) byte(digits[--count]);
    }

    // A literal and the space after it.
    void literal(int x) {
        if (x < 0) byte('-');
        number(unsigned(x < 0 ? -x : x));
        byte(' ');
    }

    void end() {
        byte('0');
        byte('\n');
    }

    void counts(int variables, int clauses) {
        for (char c : {'p', ' ', 'c', 'n', 'f', ' '}) byte(c);
        number(unsigned(variables));
        byte(' ');
        number(unsigned(clauses));
        byte('\n');
    }
};

// Writes the file and gives its length.
std::uint64_t plain_write_file(int n, int table, int r, int m, char* buffer) {
    plain::Clauses<Out> clauses(n, table, 0, r, m, Out{buffer});
    clauses.all();
    return std::uint64_t(clauses.out.at - buffer);
}

// ---------------------------------------------------------------------------
// Timing
// ---------------------------------------------------------------------------

// The request, kept where the compiler has to read it anew.
volatile int n = 4, table = 0xFFFF, r = 7, m = 7;

}  // namespace

int main() {
    std::uint64_t size = 0;
    std::uint32_t answer = 0;
    double best_size = 1e9, best_proved = 1e9, best_plain = 1e9;
    for (int run = 0; run < 7; run++) {
        best_size = std::min(best_size, milliseconds([&] {
                                 answer |= nk_file_size(std::uint8_t(n), std::uint16_t(table), 0,
                                                        std::uint8_t(r), std::uint8_t(m), &size);
                             }));
    }
    if (answer != 0) {
        std::printf("refused\n");
        return 1;
    }
    // Filled once, so that no first touch of a page is timed. The buffers
    // have other bytes, so that unwritten ones can't be equal by chance.
    std::vector<std::uint8_t> proved(size, 1);
    std::vector<char> plain(size, 2);
    std::uint64_t proved_length = 0, plain_length = 0;
    for (int run = 0; run < 7; run++) {
        best_proved = std::min(best_proved, milliseconds([&] {
                                   answer |= nk_write_file(std::uint8_t(n), std::uint16_t(table), 0,
                                                           std::uint8_t(r), std::uint8_t(m),
                                                           proved.data(), proved.size(),
                                                           &proved_length);
                               }));
        best_plain = std::min(best_plain, milliseconds([&] {
                                  plain_length = plain_write_file(n, table, r, m, plain.data());
                              }));
    }
    const bool same = answer == 0 && proved_length == size && plain_length == size &&
                      std::memcmp(proved.data(), plain.data(), size) == 0;
    if (!same) {
        std::printf("the bytes differ\n");
        return 1;
    }
    std::printf("file    %llu bytes, the same from all\n", (unsigned long long)size);
    std::printf("size    %.4f ms, %.4f of writing\n", best_size, best_size / best_proved);
    std::printf("proved  %.3f ms\n", best_proved);
    std::printf("plain   %.3f ms\n", best_plain);
    std::printf("ratio   %.2f\n", best_proved / best_plain);
    return 0;
}
