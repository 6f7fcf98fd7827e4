// Settling a cell end to end, in a process of its own: reads the answer and the refutation, lends slices of just the lengths that
// are needed, and settles; best of 7, of 4 above 4 MB.
//
//   settle ANSWER REFUTATION n table k m
//
// Prints the verdict, the bytes of both texts, milliseconds, nanoseconds for each byte, and the peak memory of the process.
#include <sys/resource.h>

#include <cstdint>
#include <cstdio>
#include <string>
#include <vector>

#include "entries.hpp"
#include "files.hpp"
#include "nordkelch.h"
#include "timing.hpp"

namespace {

// How many records a refutation needs: one for each of its lines but the deletions and the empty clause.
std::size_t additions_in(const std::string& text) {
    std::size_t others = 1;
    for (std::size_t place = 0; (place = text.find(" d ", place)) != std::string::npos; place++) others++;
    const std::size_t lines = lines_in(text);
    return lines < others ? 0 : lines - others;
}

double peak_megabytes() {
    rusage usage;
    getrusage(RUSAGE_SELF, &usage);
    return double(usage.ru_maxrss) / 1024;
}

} // namespace

int main(int count, char** words) {
    if (count != 7) {
        std::fprintf(stderr, "usage: settle ANSWER REFUTATION n table k m\n");
        return 2;
    }
    const std::string answer = text_of_file(words[1]);
    const std::string refutation = text_of_file(words[2]);
    const second::Request q = request_of(words + 3);
    unsigned V = 0, C = 0, T = 0;
    if (q.r > 0) second::counts({q.n, q.table, q.r - 1, q.m, q.free}, V, C, T);
    std::vector<std::int32_t> literals(T);
    std::vector<std::uint32_t> pairs(2 * C), added(3 * additions_in(refutation));
    std::vector<std::uint8_t> values(V + 1);
    std::uint8_t network[24];
    std::uint32_t verdict = 0, number = 0;
    double best = 1e9;
    for (int turn = turns_for(refutation.size()); turn > 0; turn--) {
        best = std::min(best, milliseconds([&] {
            verdict = ask(nk_settle, q, bytes_of(answer), answer.size(), bytes_of(refutation), refutation.size(),
                          literals.data(), literals.size(), pairs.data(), pairs.size(), added.data(), added.size(),
                          values.data(), values.size(), network, &number);
        }));
    }
    static const char* const names[] = {"least", "works", "fails", "refused"};
    const std::size_t bytes = answer.size() + refutation.size();
    const std::string request = std::string(words[3]) + " " + words[4] + " " + words[5] + " " + words[6];
    std::printf("%-31s %-7s %2u %9zu bytes %9.3f ms %6.2f ns a byte, peak %.1f MB\n", request.c_str(), names[verdict & 3],
                verdict == 0 ? q.r : number, bytes, best, nanoseconds_a_byte(best, bytes), peak_megabytes());
    return verdict == 0 ? 0 : 1;
}
