// An example of a host: settles a cell of any size from three files.
//
//   settle [--memory] REQUEST ANSWER REFUTATION
//
// Prints the report as the program `report` does, without its limits of length
// and of lent entries: "least k", "works k number", "fails k row" or "refused
// number"; after the first two a line "s v a b" for each switch and "sink c".
// A file that is not there counts as an empty one. --memory prints the peak
// resident size to standard error.
//
// Exit status: 0 least; 1 something failed, a file that is there cannot be read
// or the report cannot be written; 2 wrong words; 3 works; 4 fails; 5 refused.
// After 1 and 2 there is no report to rely on.
//
// The reading of the request's line, the verdict and the network are the proved
// library's. What stands here and in mapped.hpp maps the files, lends the
// slices and prints. Were a slice too short, the verdict would be "works" with
// 7, 8, 14 or 22, never "least".
#include <sys/resource.h>

#include <cstdint>
#include <cstdio>
#include <cstring>

#include "mapped.hpp"
#include "nordkelch.h"

namespace {

enum Status { least = 0, failed = 1, wrong_words = 2, works = 3, fails = 4, refused = 5 };

void print_network(const std::uint8_t network[24]) {
    const unsigned r = network[0];
    const std::uint8_t* literals = network + 1;
    const std::uint8_t* labels = network + 8;
    for (unsigned s = 0; s < r; s++) {
        std::printf("%u %u %u %u\n", s, unsigned(literals[s]), unsigned(labels[2 * s + 1]),
                    unsigned(labels[2 * s + 2]));
    }
    std::printf("sink %u\n", unsigned(labels[2 * r + 1]));
}

Status print_refusal(std::uint32_t number) {
    std::printf("refused %u\n", unsigned(number));
    return refused;
}

Status print_report(unsigned k, std::uint32_t verdict, std::uint32_t number,
                    const std::uint8_t network[24]) {
    switch (verdict) {
        case NK_LEAST:
            std::printf("least %u\n", k);
            print_network(network);
            return least;
        case NK_WORKS:
            std::printf("works %u %u\n", k, unsigned(number));
            print_network(network);
            return works;
        case NK_FAILS:
            std::printf("fails %u %u\n", k, unsigned(number));
            return fails;
        default:
            return print_refusal(number);
    }
}

Status settle(const Request& q, const Text& answer, const Text& refutation) {
    // the refutation is of the request with one switch fewer; at k = 0 none is
    // read
    Request below = q;
    if (q.r > 0) below.r--;
    Slices lent = q.r > 0 ? Slices(below, refutation) : Slices();
    std::uint8_t network[24] = {};
    std::uint32_t number = 0;
    const std::uint32_t verdict =
        nk_settle(q.n, q.table, q.free, q.r, q.m, answer.bytes(), answer.length(),
                  refutation.bytes(), refutation.length(), lent.literals.data(),
                  lent.literals_length, lent.pairs.data(), lent.pairs_length, lent.added.data(),
                  lent.added_length, lent.values.data(), lent.values.size(), network, &number);
    return print_report(q.r, verdict, number, network);
}

void print_memory() {
    rusage usage;
    getrusage(RUSAGE_SELF, &usage);
    std::fprintf(stderr, "peak resident size: %ld kB\n", usage.ru_maxrss);
}

}  // namespace

int main(int argc, char** argv) {
    const bool memory = argc > 1 && std::strcmp(argv[1], "--memory") == 0;
    char** names = argv + (memory ? 2 : 1);
    if (argc - (memory ? 1 : 0) != 4) {
        std::fprintf(stderr, "usage: settle [--memory] REQUEST ANSWER REFUTATION\n");
        return wrong_words;
    }
    const Text line(names[0]);
    const Text answer(names[1]);
    const Text refutation(names[2]);
    if (!readable("settle", names[0], line) || !readable("settle", names[1], answer) ||
        !readable("settle", names[2], refutation)) {
        return failed;
    }
    Request q;
    const std::uint32_t refusal = read_request(line, q);
    const Status status =
        refusal == NK_TAKEN ? settle(q, answer, refutation) : print_refusal(refusal);
    if (memory) print_memory();
    return printed("settle") ? status : failed;
}
