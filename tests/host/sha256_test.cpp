// Prints the SHA-256 of standard input, as host/command computes it; tests/main
// compares it with sha256sum.
#include "sha256.hpp"

#include <cstdio>

int main() {
    Sha256 hash;
    // parts of a length that no block has, so that blocks are filled in pieces
    char part[1000];
    for (std::size_t got; (got = std::fread(part, 1, sizeof part, stdin)) > 0;) hash.add(part, got);
    std::printf("%s\n", hash.digits().c_str());
}
