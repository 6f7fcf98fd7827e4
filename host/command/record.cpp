// Writes and reads records. A record is a JSON object in which each key of the
// first level starts a line, so that it can be read line by line; it is read
// here so, and a record that was written in another way counts as one of
// another question. What is read decides only what is checked again: the
// hashes say whether a file is the one that was left, and the proved code says
// what it is worth.
#include "record.hpp"

#include <cstdio>
#include <sstream>

#include "files.hpp"
#include "process.hpp"
#include "steps.hpp"

namespace {

std::string quoted(const std::string& text) {
    std::string result = "\"";
    for (const char c : text) {
        if (c == '"' || c == '\\') result += '\\';
        // no text here has other characters
        result += (unsigned char)c < 32 ? ' ' : c;
    }
    return result + "\"";
}

std::string decimal(double number) {
    char text[64];
    std::snprintf(text, sizeof text, "%.3f", number);
    return text;
}

// The first lines, by which a record of the same question is known.
std::string head(const Question& question) {
    std::ostringstream text;
    text << "{\n  \"request\": {\"n\": " << question.n << ", \"table\": " << quoted(question.table)
         << ", \"m\": " << question.m << "},\n";
    if (question.job == Job::settle) {
        text << "  \"command\": \"settle\",\n  \"r\": " << question.r << ",\n";
    } else {
        text << "  \"command\": \"least\",\n";
    }
    return text.str();
}

const char* name_of(Verdict verdict) {
    switch (verdict) {
        case Verdict::least:
            return "least";
        case Verdict::more:
            return "more";
        case Verdict::open:
            return "open";
    }
    return "";
}

std::string parts(const Seconds& seconds) {
    return "\"lemmas\": " + decimal(seconds.lemmas) + ", \"solver\": " + decimal(seconds.solver) +
           ", \"conversion\": " + decimal(seconds.conversion) +
           ", \"check\": " + decimal(seconds.check) + "}";
}

std::string parts(std::uint64_t proof, std::uint64_t refutation) {
    return "{\"proof\": " + std::to_string(proof) +
           ", \"refutation\": " + std::to_string(refutation) + "}";
}

std::string attempts_text(const std::vector<Made>& attempts) {
    std::string text = "[";
    for (const Made& made : attempts) {
        text += text == "[" ? "\n    " : ",\n    ";
        text += "{\"switches\": " + std::to_string(made.switches) +
                ", \"lemmas\": " + quoted(made.attempt.lemmas) +
                ", \"options\": " + quoted(made.attempt.options) +
                ", \"outcome\": " + quoted(name_of(made.outcome)) + ", \"seconds\": {" +
                parts(made.seconds) +
                ", \"bytes\": " + parts(made.proof_bytes, made.refutation_bytes) + "}";
    }
    return text + "]";
}

std::string files_text(const std::map<std::string, std::string>& files) {
    std::string text = "{";
    for (const auto& [name, hash] : files) {
        text += text == "{" ? "\n    " : ",\n    ";
        text += quoted(name) + ": " + quoted(hash);
    }
    return text + "}";
}

Seconds sum(const std::vector<Made>& attempts) {
    Seconds seconds;
    for (const Made& made : attempts) {
        seconds.lemmas += made.seconds.lemmas;
        seconds.solver += made.seconds.solver;
        seconds.conversion += made.seconds.conversion;
        seconds.check += made.seconds.check;
    }
    return seconds;
}

std::string without_newline(std::string text) {
    while (!text.empty() && text.back() == '\n') text.pop_back();
    return text;
}

// The kit that the library was proved with; host/library leaves it there.
std::string kit() {
    const std::string name = tool("../staticlib/kit");
    return exists(name) ? without_newline(read_file(name)) : "";
}

}  // namespace

std::string record_text(const Record& record, const Words& words, const Journal& journal,
                        const std::string& solver_version) {
    // the refutation that is kept is of one switch fewer than the lower bound
    Made kept;
    kept.seed = words.seed;
    if (record.lower > 0) kept = journal.refuting(record.lower - 1).value_or(kept);
    std::ostringstream text;
    text << head(words.question) << "  \"verdict\": " << quoted(name_of(record.verdict)) << ",\n"
         << "  \"k\": " << (record.k ? std::to_string(*record.k) : "null") << ",\n"
         << "  \"lower\": " << record.lower << ",\n"
         << "  \"reason\": " << quoted(record.reason) << ",\n"
         << "  \"seconds\": {\"total\": "
         << decimal(journal.seconds_before() + seconds_since_start()) << ", "
         << parts(sum(journal.made())) << ",\n"
         << "  \"bytes\": " << parts(kept.proof_bytes, record.refutation_bytes) << ",\n"
         << "  \"lemmas\": " << quoted(kept.attempt.lemmas) << ",\n"
         << "  \"solver\": {\"name\": \"cadical\", \"version\": " << quoted(solver_version)
         << ", \"options\": " << quoted(kept.attempt.options) << ", \"seed\": " << kept.seed
         << "},\n"
         << "  \"attempts\": " << attempts_text(journal.made()) << ",\n"
         << "  \"kit\": " << quoted(kit()) << ",\n"
         << "  \"version\": " << quoted(VERSION) << ",\n"
         << "  \"files\": " << files_text(record.files) << "\n}\n";
    return text.str();
}

namespace {

// The text between two others in a line; empty where it has not both.
std::string between(const std::string& line, const std::string& before, const std::string& after) {
    if (line.rfind(before, 0) != 0) return "";
    const std::size_t end = line.find(after, before.size());
    return end == line.npos ? "" : line.substr(before.size(), end - before.size());
}

// A digit, or `other`.
unsigned digit(const std::string& text, unsigned other) {
    return text.size() == 1 && text[0] >= '0' && text[0] <= '9' ? unsigned(text[0] - '0') : other;
}

}  // namespace

std::optional<Record> read_record(const std::string& text, const Question& question) {
    const std::string first = head(question);
    if (text.rfind(first, 0) != 0) return std::nullopt;
    Record record;
    bool in_files = false;
    std::istringstream lines(text.substr(first.size()));
    for (std::string line; std::getline(lines, line);) {
        const std::string verdict = between(line, "  \"verdict\": \"", "\",");
        if (verdict == "least") record.verdict = Verdict::least;
        if (verdict == "more") record.verdict = Verdict::more;
        const unsigned k = digit(between(line, "  \"k\": ", ","), 10);
        if (k < 10) record.k = k;
        record.lower = digit(between(line, "  \"lower\": ", ","), record.lower);
        if (line.rfind("  \"files\": {", 0) == 0) in_files = true;
        const std::string name = between(line, "    \"", "\": \"");
        if (in_files && !name.empty()) {
            record.files[name] = between(line, "    \"" + name + "\": \"", "\"");
        }
    }
    return record;
}
