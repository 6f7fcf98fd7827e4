// The record of a folder, record.json: what was asked and found, how, and at
// what cost.
#ifndef RECORD_HPP
#define RECORD_HPP

#include <cstdint>
#include <map>
#include <optional>
#include <string>

#include "journal.hpp"
#include "words.hpp"

enum class Verdict { least, more, open };

struct Record {
    Verdict verdict = Verdict::open;
    std::optional<unsigned> k;           // switches of the network that is kept
    unsigned lower = 0;                  // every network has so many switches or more, checked
    std::string reason;                  // why it is open
    std::uint64_t refutation_bytes = 0;  // of the one that is kept
    std::map<std::string, std::string> files;  // the SHA-256 of each
};

// The text of a record.
std::string record_text(const Record& record, const Words& words, const Journal& journal,
                        const std::string& solver_version);

// What stands in a record of this question; nothing where the text is of
// another question, or not of this form.
std::optional<Record> read_record(const std::string& text, const Question& question);

#endif
