// Checks a refutation of a request, by the proved code.
//
//   check REQUEST REFUTATION
//
// REFUTATION refutes the clauses of the request itself, not of one switch fewer
// as for settle. Prints "more than R" where it is accepted: every network that
// does the request's job, of any number of switches, has more than R. Else
// "refused number", the number of the request's or the refutation's refusal. A
// file that is not there counts as an empty one.
//
// Exit status: 0 more than R; 1 something failed, a file that is there cannot
// be read or the line cannot be written; 2 wrong words; 5 refused.
//
// What is said comes from nk_read_request and nk_check_refutation; mapped.hpp
// maps the files and lends the slices.
#include <cstdint>
#include <cstdio>

#include "mapped.hpp"
#include "nordkelch.h"

namespace {

enum Status { more = 0, failed = 1, wrong_words = 2, refused = 5 };

std::uint32_t check(const Request& q, const Text& refutation) {
    Slices lent(q, refutation);
    std::uint32_t count = 0;
    return nk_check_refutation(q.n, q.table, q.free, q.r, q.m, refutation.bytes(),
                               refutation.length(), lent.literals.data(), lent.literals_length,
                               lent.pairs.data(), lent.pairs_length, lent.added.data(),
                               lent.added_length, lent.values.data(), lent.values.size(), &count);
}

}  // namespace

int main(int argc, char** argv) {
    if (argc != 3) {
        std::fprintf(stderr, "usage: check REQUEST REFUTATION\n");
        return wrong_words;
    }
    const Text line(argv[1]);
    const Text refutation(argv[2]);
    if (!readable("check", argv[1], line) || !readable("check", argv[2], refutation)) {
        return failed;
    }
    Request q;
    std::uint32_t number = read_request(line, q);
    if (number == NK_TAKEN) number = check(q, refutation);
    if (number == NK_TAKEN) {
        std::printf("more than %u\n", unsigned(q.r));
    } else {
        std::printf("refused %u\n", unsigned(number));
    }
    if (!printed("check")) return failed;
    return number == NK_TAKEN ? more : refused;
}
