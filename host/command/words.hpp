// The words of the command: what is asked, where the result goes, and the
// options.
#ifndef WORDS_HPP
#define WORDS_HPP

#include <cstdint>
#include <optional>
#include <string>

enum class Job { least, settle };

// What is asked. A request of document 01 has a number of switches too; for
// `least` that is what is sought, for `settle` it is r.
struct Question {
    Job job = Job::least;
    unsigned n = 0;
    std::string table;  // of 0, 1 and -, row 0 first
    unsigned r = 0;
    unsigned m = 0;

    // The line of the request with k switches.
    std::string line(unsigned k) const;
};

struct Words {
    Question question;
    std::string folder;
    unsigned seconds = 600;         // for a run of the solver
    std::optional<unsigned> total;  // for the command
    unsigned seed = 0;
    std::uint64_t limit = 16777215;  // of a refutation, in bytes
    bool force = false;
};

// The words judged; throws End with status 2 where they are refused.
Words read_words(int count, char** words);

#endif
