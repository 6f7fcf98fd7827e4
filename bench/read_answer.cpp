// How long reading an answer takes, by the answer's length: one line of numbers, and many lines of one number each.
// Prints nanoseconds for each byte at four lengths; they stay near each other where reading is linear.
#include <cstdio>
#include <string>

#include "nordkelch.h"

#include "timing.hpp"

// An answer to "1 01 1 1" whose last variable, 15, is named count times more.
static std::string answer(unsigned count, const char* between) {
    std::string text = "s SATISFIABLE\nv 1 -2 -3 -4 -5 6 7 -8";
    for (unsigned i = 0; i < count; i++) {
        text += between;
        text += "15";
    }
    return text + " 0\n";
}

static double nanoseconds_per_byte(const std::string& text) {
    double best = 1e9;
    unsigned refusal = 0;
    for (int turn = turns_for(text.size()); turn > 0; turn--) {
        best = std::min(best, milliseconds([&] {
            refusal = nk_test_answer(1, 2, 0, 1, 1, reinterpret_cast<const uint8_t*>(text.data()), text.size());
        }));
    }
    if (refusal != 0) std::printf("refused %u\n", refusal);
    return nanoseconds_a_byte(best, text.size());
}

int main() {
    for (const char* between : {" ", "\nv "}) {
        for (unsigned count = 10000; count <= 10000000; count *= 10) {
            const std::string text = answer(count, between);
            std::printf("%s, %zu bytes: %.2f ns a byte\n", between[0] == ' ' ? "one line" : "many lines", text.size(),
                        nanoseconds_per_byte(text));
        }
    }
}
