// Writes a refutation made from a real one to standard output: a long one, by tests/host/long_refutation.hpp; or one with gaps between
// its ids, by tests/host/gapped.hpp. The gaps are none, hundredth, third or rare.
//
//   make_refutation FILE n table r m BYTES near|far
//   make_refutation --gaps GAPS FILE n table r m
#include <cstdio>
#include <cstdlib>
#include <string>

#include "files.hpp"
#include "gapped.hpp"
#include "long_refutation.hpp"

namespace {

std::string long_text(char** words) {
    const LongRefutation source(request_of(words + 1), text_of_file(words[0]));
    const auto hints = std::string(words[6]) == "far" ? LongRefutation::Hints::far : LongRefutation::Hints::near;
    return source.text(std::size_t(std::atol(words[5])), hints);
}

std::string text_with_gaps(char** words) {
    unsigned V = 0, C = 0, T = 0;
    second::counts(request_of(words + 2), V, C, T);
    Gaps gaps = Gaps::none;
    for (const Gaps one : all_gaps) {
        if (std::string(words[0]) == gaps_name(one)) gaps = one;
    }
    return gapped(text_of_file(words[1]), C, gaps);
}

} // namespace

int main(int count, char** words) {
    if (count != 8) {
        std::fprintf(stderr, "usage: make_refutation FILE n table r m BYTES near|far\n"
                             "       make_refutation --gaps GAPS FILE n table r m\n");
        return 2;
    }
    const bool with_gaps = std::string(words[1]) == "--gaps";
    const std::string text = with_gaps ? text_with_gaps(words + 2) : long_text(words + 1);
    return std::fwrite(text.data(), 1, text.size(), stdout) == text.size() ? 0 : 1;
}
