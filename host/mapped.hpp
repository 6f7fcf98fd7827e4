// What the hosts settle.cpp and check.cpp have in common: a file's bytes, a
// request that is read from one, and the slices to lend for a refutation.
//
// Everything proved is in the library; this maps files and counts lines. A file
// that is not there counts as an empty one, as document 01 has it for the
// report. One that is there and cannot be read, a directory and a pipe
// included, is told apart from it: an empty refutation is "works k 23", and
// whoever damaged or hid a file should not be told that.
#ifndef MAPPED_HPP
#define MAPPED_HPP

#include <fcntl.h>
#include <sys/mman.h>
#include <sys/stat.h>
#include <unistd.h>

#include <cerrno>
#include <cstddef>
#include <cstdint>
#include <cstdio>
#include <cstring>
#include <string>
#include <string_view>
#include <vector>

#include "nordkelch.h"

// A file's bytes, mapped: a long refutation is not copied, and its pages are
// read when the check comes to them.
class Text {
  public:
    explicit Text(const char* name) {
        // without O_NONBLOCK the opening of a pipe waits for a writer
        const int file = open(name, O_RDONLY | O_NONBLOCK | O_CLOEXEC);
        if (file < 0) {
            if (errno != ENOENT) fault_ = std::strerror(errno);
            return;
        }
        map(file);
        close(file);
    }
    Text(const Text&) = delete;
    Text& operator=(const Text&) = delete;
    ~Text() {
        if (length_ > 0) munmap(const_cast<std::uint8_t*>(bytes_), length_);
    }

    // Why the file cannot be read; empty where it can be, or is not there.
    const std::string& fault() const { return fault_; }
    // never null, also where the length is 0
    const std::uint8_t* bytes() const { return bytes_; }
    std::size_t length() const { return length_; }
    std::string_view view() const { return {reinterpret_cast<const char*>(bytes_), length_}; }

  private:
    void map(int file) {
        struct stat about;
        if (fstat(file, &about) != 0) {
            fault_ = std::strerror(errno);
        } else if (S_ISDIR(about.st_mode)) {
            fault_ = std::strerror(EISDIR);
        } else if (!S_ISREG(about.st_mode)) {
            fault_ = "Not a regular file";
        } else if (about.st_size > 0) {
            const std::size_t length = std::size_t(about.st_size);
            void* place = mmap(nullptr, length, PROT_READ, MAP_PRIVATE, file, 0);
            if (place == MAP_FAILED) {
                fault_ = std::strerror(errno);
                return;
            }
            bytes_ = static_cast<const std::uint8_t*>(place);
            length_ = length;
        }
    }

    static constexpr std::uint8_t none_ = 0;
    const std::uint8_t* bytes_ = &none_;
    std::size_t length_ = 0;
    std::string fault_;
};

// Whether a text can be used; says which file cannot be read, and why.
inline bool readable(const char* program, const char* name, const Text& text) {
    if (text.fault().empty()) return true;
    std::fprintf(stderr, "%s: cannot read %s: %s\n", program, name, text.fault().c_str());
    return false;
}

// Whether all that was printed has left the program; says why not.
inline bool printed(const char* program) {
    if (std::fflush(stdout) == 0 && std::ferror(stdout) == 0) return true;
    std::fprintf(stderr, "%s: cannot write to standard output: %s\n", program,
                 std::strerror(errno));
    return false;
}

struct Request {
    std::uint8_t n = 0;
    std::uint16_t table = 0;
    std::uint16_t free = 0;  // the free rows
    std::uint8_t r = 0;
    std::uint8_t m = 0;
};

// The request of a line: NK_TAKEN, or the number of the refusal.
inline std::uint32_t read_request(const Text& line, Request& q) {
    return nk_read_request(line.bytes(), line.length(), &q.n, &q.table, &q.free, &q.r, &q.m);
}

// The lines of a refutation that may add a clause: all but those whose second
// word is "d".
inline std::size_t adding_lines(std::string_view text) {
    std::size_t count = 0;
    while (!text.empty()) {
        const std::size_t end = text.find('\n');
        const std::string_view line = text.substr(0, end);
        const std::size_t space = line.find(' ');
        const bool deletion =
            space != line.npos && space + 1 < line.size() && line[space + 1] == 'd';
        if (!deletion) count++;
        text.remove_prefix(end == text.npos ? text.size() : end + 1);
    }
    return count;
}

// Slices for the check of a refutation, as short as they may be
// (host/nordkelch.h, "What to lend"). Where one were too short the check would
// refuse with 7, 8, 14 or 22, never pass. A vector has one entry more than is
// lent where that could be none, so that its pointer is not null.
struct Slices {
    // for a refutation that is not read
    Slices() = default;
    Slices(const Request& refuted, const Text& refutation) {
        std::uint32_t V = 0, C = 0, T = 0;
        nk_sizes(refuted.n, refuted.table, refuted.free, refuted.r, refuted.m, &V, &C, &T);
        literals_length = T;
        pairs_length = 2 * std::size_t(C);
        // a text above the limit is refused before any line is read
        if (refutation.length() <= NK_REFUTATION_LIMIT) {
            added_length = 3 * adding_lines(refutation.view());
        }
        literals.resize(literals_length + 1);
        pairs.resize(pairs_length + 1);
        added.resize(added_length + 1);
        values.resize(V + 1);
    }

    std::size_t literals_length = 0;
    std::size_t pairs_length = 0;
    std::size_t added_length = 0;
    std::vector<std::int32_t> literals = {0};
    std::vector<std::uint32_t> pairs = {0};
    std::vector<std::uint32_t> added = {0};
    std::vector<std::uint8_t> values = {0};
};

#endif
