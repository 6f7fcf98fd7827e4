// Files and words of the command line, for the programs of this folder and of bench/.
#pragma once

#include <algorithm>
#include <cstddef>
#include <cstdint>
#include <cstdlib>
#include <fstream>
#include <iterator>
#include <string>

#include "../second/clauses.hpp"

// False where the file cannot be read; the text is empty then.
inline bool read_text(const std::string& name, std::string& text) {
    std::ifstream in(name, std::ios::binary);
    text.assign((std::istreambuf_iterator<char>(in)), std::istreambuf_iterator<char>());
    return bool(in);
}

// The text of a file, empty where it cannot be read.
inline std::string text_of_file(const std::string& name) {
    std::string text;
    read_text(name, text);
    return text;
}

// The words n, table, r, m, the table's row 0 first, with - for a free row.
inline second::Request request_of(char** words) {
    second::Request q = {unsigned(std::atoi(words[0])), 0, unsigned(std::atoi(words[2])),
                         unsigned(std::atoi(words[3]))};
    const std::string table = words[1];
    for (std::size_t row = 0; row < table.size() && row < 16; row++) {
        if (table[row] == '1') q.table |= 1u << row;
        if (table[row] == '-') q.free |= 1u << row;
    }
    return q;
}

inline const std::uint8_t* bytes_of(const std::string& text) {
    return reinterpret_cast<const std::uint8_t*>(text.data());
}

inline std::size_t lines_in(const std::string& text) {
    return std::size_t(std::count(text.begin(), text.end(), '\n'));
}
