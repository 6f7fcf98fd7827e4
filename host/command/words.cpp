// Reads the words of the command.
//
//   settle TABLE R M [FOLDER]   or   least TABLE M [FOLDER]
//
// with options anywhere. A word that starts with "--" is an option, up to a
// word "--"; any other word, "-x" for example, is taken as it stands, since a
// folder may be named so. A table may start with "--" too, for two free rows:
// a longer word of 0, 1 and - alone is no option, and the table of two free rows
// is given after a word "--". What document 01 judges in a request is judged here
// in its order and refused with its number: 1 a field has something else than
// digits, in the table also -, 3 the table, 4 R, 5 M. n follows from the table.
// --help and --version are answered by host/nordkelch, which starts this program.
#include "words.hpp"

#include <algorithm>
#include <string>
#include <vector>

#include "say.hpp"

namespace {

const char* const usage =
    "usage: bash host/nordkelch settle TABLE R M [FOLDER]\n"
    "       bash host/nordkelch least TABLE M [FOLDER]\n"
    "options: --time SECONDS  --total SECONDS  --seed NUMBER  --limit BYTES  --force  --help"
    "  --version";

[[noreturn]] void refuse(unsigned number, const std::string& why) {
    throw End{wrong_words, "refused " + std::to_string(number) + ": " + why};
}

bool only(const std::string& word, const char* characters) {
    return !word.empty() && word.find_first_not_of(characters) == word.npos;
}

// A number of at most nine digits, without leading zeros.
std::optional<unsigned> number(const std::string& word) {
    if (!only(word, "0123456789") || word.size() > 9) return std::nullopt;
    if (word.size() > 1 && word[0] == '0') return std::nullopt;
    return unsigned(std::stoul(word));
}

bool up_to_seven(const std::string& word) {
    return word.size() == 1 && word[0] >= '0' && word[0] <= '7';
}

unsigned inputs(const std::string& table) {
    for (unsigned n = 1; n <= 4; n++) {
        if (table.size() == (std::size_t(1) << n)) return n;
    }
    refuse(3, "the table has " + std::to_string(table.size()) + " rows, not 2, 4, 8 or 16");
}

Question judge(Job job, const std::string& table, const std::string& r, const std::string& m) {
    if (!only(table, "0123456789-")) {
        refuse(1, "the table has digits and - only, and \"" + table + "\" has not");
    }
    for (const std::string& word : {r, m}) {
        if (!only(word, "0123456789")) {
            refuse(1, "R and M have digits only, and \"" + word + "\" has not");
        }
    }
    if (!only(table, "01-")) refuse(3, "the table has a character that is neither 0, 1 nor -");
    Question question;
    question.job = job;
    question.table = table;
    question.n = inputs(table);
    if (!up_to_seven(r)) refuse(4, "R is one digit from 0 to 7, not \"" + r + "\"");
    if (!up_to_seven(m)) refuse(5, "M is one digit from 0 to 7, not \"" + m + "\"");
    question.r = unsigned(r[0] - '0');
    question.m = unsigned(m[0] - '0');
    return question;
}

// Whether a word is an option: it starts with "--" and is not a table.
bool is_option(const std::string& word) { return word.rfind("--", 0) == 0 && !only(word, "01-"); }

// Takes the option at `at`, and its number, off the words.
void take_option(const std::vector<std::string>& given, std::size_t& at, Words& words) {
    const std::string& option = given[at++];
    if (option == "--force") {
        words.force = true;
        return;
    }
    if (option != "--time" && option != "--total" && option != "--seed" && option != "--limit") {
        throw End{wrong_words, usage};
    }
    const auto value = at < given.size() ? number(given[at]) : std::nullopt;
    if (!value) throw End{wrong_words, option + " takes a number of at most nine digits"};
    at++;
    if (option == "--time") words.seconds = *value;
    if (option == "--total") words.total = *value;
    if (option == "--seed") words.seed = *value;
    // the check reads no longer ones
    if (option == "--limit") words.limit = std::min<std::uint64_t>(*value, words.limit);
}

}  // namespace

std::string Question::line(unsigned k) const {
    return std::to_string(n) + " " + table + " " + std::to_string(k) + " " + std::to_string(m) +
           "\n";
}

Words read_words(int count, char** words) {
    const std::vector<std::string> given(words + std::min(count, 1), words + count);
    Words result;
    std::vector<std::string> plain;
    bool options = true;
    for (std::size_t at = 0; at < given.size();) {
        if (options && given[at] == "--") {
            options = false;
            at++;
        } else if (options && is_option(given[at])) {
            take_option(given, at, result);
        } else {
            plain.push_back(given[at++]);
        }
    }
    const std::string job = plain.empty() ? "" : plain[0];
    const std::size_t fields = job == "settle" ? 4 : job == "least" ? 3 : 0;
    if (fields == 0 || plain.size() < fields || plain.size() > fields + 1) {
        throw End{wrong_words, usage};
    }
    const bool settle = job == "settle";
    result.question = judge(settle ? Job::settle : Job::least, plain[1], settle ? plain[2] : "0",
                            plain[fields - 1]);
    result.folder = plain.size() > fields ? plain[fields] : "";
    if (result.folder.empty()) {
        // a free row is x here: with "-" the names for `least` with one table and for
        // `settle` with another would be the same
        std::string table = plain[1];
        std::replace(table.begin(), table.end(), '-', 'x');
        result.folder =
            "nordkelch-" + table + (settle ? "-" + plain[2] : "") + "-" + plain[fields - 1];
    }
    return result;
}
