// The clause file of a request, of any size, by the proved code.
//
//   clauses < REQUEST > FILE
//
// Reads the request's line from standard input and writes its clause file, or
// "refused" and the number 1 to 5. The exit status is 0 where the file is
// written.
#include <cstdint>
#include <cstdio>
#include <string>
#include <vector>

#include "nordkelch.h"

namespace {

// Writes the clause file of a request that was read, which the library does not
// refuse. False where it is not written.
bool write_clauses(std::uint8_t n, std::uint16_t table, std::uint16_t free_rows, std::uint8_t r,
                   std::uint8_t m) {
    std::uint64_t size = 0;
    if (nk_file_size(n, table, free_rows, r, m, &size) != NK_TAKEN) return false;
    std::vector<std::uint8_t> file(size);
    if (nk_write_file(n, table, free_rows, r, m, file.data(), file.size(), &size) != NK_TAKEN) {
        return false;
    }
    return std::fwrite(file.data(), 1, size, stdout) == size && std::fflush(stdout) == 0;
}

}  // namespace

int main() {
    std::string line;
    char part[4096];
    for (std::size_t got; (got = std::fread(part, 1, sizeof part, stdin)) > 0;) {
        line.append(part, got);
    }
    std::uint8_t n = 0, r = 0, m = 0;
    std::uint16_t table = 0, free_rows = 0;
    const auto* text = reinterpret_cast<const std::uint8_t*>(line.data());
    const std::uint32_t refusal =
        nk_read_request(text, line.size(), &n, &table, &free_rows, &r, &m);
    if (refusal != NK_TAKEN) {
        std::printf("refused %u\n", unsigned(refusal));
        return 1;
    }
    if (!write_clauses(n, table, free_rows, r, m)) {
        std::fprintf(stderr, "clauses: cannot write the file\n");
        return 2;
    }
    return 0;
}
