// A second implementation of what the programs `file` and `report` print,
// written from documents 01 and 02 alone.
#pragma once

#include <cstddef>
#include <string>
#include <vector>

#include "clauses.hpp"
#include "settling.hpp"

namespace second {

// "reads request.txt, answer.txt, refutation.txt, up to 65,536 bytes each";
// "the file program writes into 65,536 bytes".
const std::size_t program_bytes = 65536;

// "the file program [...] prints "refused number" otherwise". An input that is
// too long hasn't the line form.
inline std::string file_output(const std::string& input) {
    Request q = {0, 0, 0, 0};
    const int number = input.size() > program_bytes ? 1 : read_request(input, q);
    if (number != 0) return "refused " + std::to_string(number) + "\n";
    const std::string text = file(q);
    return text.size() > program_bytes ? "refused 6\n" : text;
}

// "a line "s v a b" per switch (number, literal, the two nets) and "sink c""
inline std::string network_lines(const std::vector<std::uint8_t>& network) {
    std::string text;
    const auto word = [&](std::size_t entry) { return " " + std::to_string(network[entry]); };
    const std::size_t r = network[0];
    for (std::size_t s = 0; s < r; s++) {
        text += std::to_string(s) + word(1 + s) + word(8 + 2 * s + 1) + word(8 + 2 * s + 2) + "\n";
    }
    return text + "sink" + word(8 + 2 * r + 1) + "\n";
}

// "the first longer one, in that order, ends it with "too long" and its name".
// "It lends 16,384 entries each for literals, pairs and added pairs, and 8,192
// bytes of values": those for added pairs have room for 5,461 records of three
// entries. "It prints "least k", "works k number", "fails k row" or "refused
// number"".
inline std::string report_output(const std::string& request, const std::string& answer,
                                 const std::string& refutation) {
    if (request.size() > program_bytes) return "too long request.txt\n";
    if (answer.size() > program_bytes) return "too long answer.txt\n";
    if (refutation.size() > program_bytes) return "too long refutation.txt\n";
    Request q = {0, 0, 0, 0};
    const int number = read_request(request, q);
    if (number != 0) return "refused " + std::to_string(number) + "\n";
    const Slices lent = {std::vector<std::int32_t>(16384), std::vector<std::uint32_t>(16384),
                         std::vector<std::uint32_t>(16384), std::vector<std::uint8_t>(8192)};
    const Settlement settled = settle(q, answer, refutation, lent);
    const std::string k = " " + std::to_string(q.r), other = " " + std::to_string(settled.number);
    if (settled.verdict == 0) return "least" + k + "\n" + network_lines(settled.network);
    if (settled.verdict == 1) return "works" + k + other + "\n" + network_lines(settled.network);
    if (settled.verdict == 2) return "fails" + k + other + "\n";
    return "refused" + other + "\n";
}

}  // namespace second
