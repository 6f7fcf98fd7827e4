// Compares the labels that the program `vectors` works out from X values, as
// they stand in its stored output, with the second implementation.
//
//   clusters_test STORED    runs all groups of checks on the file STORED
//
// Each line of that file which starts with "labels" has the form
//
//   labels N VALUES: L0 L1 ... L15
//
// with a digit for the value of each X in the order of their numbers, none where
// N is above 16; lines that start otherwise are passed over. One line is printed
// for each group that fails. The last line is "N passed, M failed", in groups.
// The exit status is 0 only if M is 0.
#include "../second/clusters.hpp"

#include <algorithm>
#include <cstddef>
#include <cstdint>
#include <cstdio>
#include <set>
#include <string>
#include <vector>

#include "../second/answers.hpp"
#include "checks.hpp"
#include "files.hpp"

namespace {

using second::Labels;
using second::most_terminals;

// What a line says. `assignment` marks the first line of N = 4 with these values,
// if each of them is 0 or 1; the others are the random ones.
struct Stored {
    std::string text;
    std::size_t N = 0;
    std::string digits;
    std::vector<std::uint8_t> values;
    Labels labels{};
    bool assignment = false;
};

using AllStored = std::vector<Stored>;

// ---------------------------------------------------------------------------
// The form of a line
// ---------------------------------------------------------------------------

// A decimal number below 2^64 without leading zeros.
bool decimal_of(const std::string& word, std::uint64_t& number) {
    if (word.empty() || (word[0] == '0' && word.size() > 1)) return false;
    number = 0;
    for (char c : word) {
        if (!second::is_digit(c)) return false;
        const unsigned digit = unsigned(c - '0');
        if (number > (UINT64_MAX - digit) / 10) return false;
        number = 10 * number + digit;
    }
    return true;
}

// The words are "labels", N, the values with a colon after them, and 16 labels.
// A label is a byte.
bool read_line(const second::Line& line, Stored& stored) {
    stored.text = line.text;
    const std::vector<std::string> words = second::words_of(line.text);
    if (!line.finished || words.size() != 3 + most_terminals || words[0] != "labels") return false;
    std::uint64_t number = 0;
    if (!decimal_of(words[1], number)) return false;
    stored.N = std::size_t(number);
    const std::size_t pairs = number > most_terminals ? 0 : second::pairs_of(stored.N);
    if (words[2].size() != pairs + 1 || words[2].back() != ':') return false;
    stored.digits = words[2].substr(0, pairs);
    for (char c : stored.digits) {
        if (!second::is_digit(c)) return false;
        stored.values.push_back(std::uint8_t(c - '0'));
    }
    for (std::size_t t = 0; t < most_terminals; t++) {
        if (!decimal_of(words[3 + t], number) || number > 255) return false;
        stored.labels[t] = unsigned(number);
    }
    return true;
}

// All lines that start with "labels"; those without the form are faults and left
// out.
AllStored read_all(const std::string& text) {
    Group group("each line of labels has the form");
    AllStored all;
    std::set<std::string> assignments;
    for (const second::Line& line : second::lines_of(text)) {
        if (line.text.compare(0, 6, "labels") != 0) continue;
        Stored stored;
        const bool good = read_line(line, stored);
        group.check(good, shown(line.text), "another form");
        if (!good) continue;
        stored.assignment = stored.N == 4 &&
                            stored.digits.find_first_not_of("01") == std::string::npos &&
                            assignments.insert(stored.digits).second;
        all.push_back(stored);
    }
    group.check(!all.empty(), "labels", "no line");
    group.finish();
    return all;
}

// ---------------------------------------------------------------------------
// The labels
// ---------------------------------------------------------------------------

std::string labels_text(const Labels& labels) {
    std::string text;
    for (unsigned label : labels) text += " " + std::to_string(label);
    return text.substr(1);
}

// The rule that is right where X are those of a network, and not for any X: the
// lowest j with X(j,i) true, or i.
Labels direct_labels(std::size_t N, const std::vector<std::uint8_t>& values) {
    Labels labels{};
    for (std::size_t i = 0; i < N && N <= most_terminals; i++) {
        std::size_t j = 0;
        while (j < i && !second::X_is_true(N, values, j, i)) j++;
        labels[i] = unsigned(j);
    }
    return labels;
}

bool differs_from_direct(const Stored& stored) {
    return stored.labels != direct_labels(stored.N, stored.values);
}

// A group for each N from 0 to 16, and one for those above.
void groups_same(const AllStored& all) {
    for (std::size_t N = 0; N <= most_terminals + 1; N++) {
        const bool above = N > most_terminals;
        Group group(above ? "labels of more than 16 terminals"
                          : "labels of " + std::to_string(N) + " terminals");
        for (const Stored& stored : all) {
            if (above ? stored.N <= most_terminals : stored.N != N) continue;
            const Labels want = second::labels_of_chains(stored.N, stored.values);
            const bool same = stored.labels == want;
            group.check(same, same ? "" : shown(stored.text),
                        same ? "" : "second: " + labels_text(want));
        }
        group.finish();
    }
}

// "a label is the lowest terminal of its net", where "equal labels mean one
// net": no label is above its terminal, and it is the label of its label.
void group_form(const AllStored& all) {
    Group group("labels are those of a network");
    for (const Stored& stored : all) {
        bool good = true;
        for (std::size_t t = 0; t < most_terminals; t++) {
            const unsigned label = stored.labels[t];
            good = good && label <= t && stored.labels[label] == label;
        }
        group.check(good, shown(stored.text), "not lowest terminals");
    }
    group.finish();
}

// ---------------------------------------------------------------------------
// Which lines there are
// ---------------------------------------------------------------------------

// The digits of N = 4 in which X number x is bit x - 1.
std::string assignment_of(unsigned bits) {
    std::string digits;
    for (unsigned x = 0; x < 6; x++) digits += ((bits >> x) & 1) == 1 ? '1' : '0';
    return digits;
}

void group_assignments(const AllStored& all) {
    Group group("all assignments of 4 terminals");
    std::set<std::string> found;
    for (const Stored& stored : all) {
        if (stored.assignment) found.insert(stored.digits);
    }
    for (unsigned bits = 0; bits < 64; bits++) {
        const std::string digits = assignment_of(bits);
        group.check(found.count(digits) == 1, digits, "no line");
    }
    group.finish();
}

// Twenty random lines for each N from 2 to 16. With fewer terminals there is no
// X, and with more no value is given, so that one line is enough.
void group_counts(const AllStored& all) {
    Group group("lines of each number of terminals");
    std::vector<unsigned> lines(most_terminals + 2, 0);
    for (const Stored& stored : all) {
        if (!stored.assignment) lines[std::min(stored.N, most_terminals + 1)]++;
    }
    for (std::size_t N = 0; N < lines.size(); N++) {
        const unsigned least = N >= 2 && N <= most_terminals ? 20 : 1;
        group.check(lines[N] >= least, N > most_terminals ? "more than 16" : std::to_string(N),
                    "only " + std::to_string(lines[N]) + " lines");
    }
    group.finish();
}

// For each N from 4 on a random line tells the rule from the direct one. With
// fewer terminals most random lines do not.
void group_direct(const AllStored& all) {
    Group group("labels that the direct rule does not give");
    std::vector<unsigned> lines(most_terminals + 1, 0);
    for (const Stored& stored : all) {
        if (stored.N > most_terminals || stored.assignment) continue;
        if (differs_from_direct(stored)) lines[stored.N]++;
    }
    for (std::size_t N = 4; N <= most_terminals; N++) {
        group.check(lines[N] > 0, std::to_string(N), "no line");
    }
    group.finish();
}

// N = 4 with X(0,3) and X(2,3), the numbers 3 and 6, true only: labels 0 1 0 0,
// by the direct rule 0 1 2 0.
void group_example(const AllStored& all) {
    Group group("the example of 4 terminals");
    const Labels want = {0, 1, 0, 0}, direct = {0, 1, 2, 0};
    const std::vector<std::uint8_t> values = {0, 0, 1, 0, 0, 1};
    unsigned found = 0;
    for (const Stored& stored : all) {
        if (stored.N != 4 || stored.values != values) continue;
        found++;
        group.check(stored.labels == want, shown(stored.text), "not " + labels_text(want));
    }
    group.check(found > 0, "001001", "no line");
    group.check(second::labels_of_chains(4, values) == want, "001001", "second: other labels");
    group.check(direct_labels(4, values) == direct, "001001", "direct rule: other labels");
    group.finish();
}

void print_counts(const AllStored& all) {
    std::size_t assignments = 0, direct = 0, nets = 0;
    for (const Stored& stored : all) {
        if (stored.assignment) {
            assignments++;
            continue;
        }
        if (stored.N > most_terminals) continue;
        if (differs_from_direct(stored)) direct++;
        if (stored.labels != Labels{}) nets++;
    }
    std::printf("labels: %zu assignments of 4 terminals and %zu other lines; of these, %zu have "
                "labels that the direct rule does not give, and %zu two nets or more\n",
                assignments, all.size() - assignments, direct, nets);
}

}  // namespace

int main(int count, char** words) {
    if (count != 2) {
        std::fprintf(stderr, "usage: clusters_test STORED\n");
        return 2;
    }
    std::string text;
    if (!read_text(words[1], text)) {
        std::fprintf(stderr, "clusters_test: %s cannot be read\n", words[1]);
        return 2;
    }
    const AllStored all = read_all(text);
    groups_same(all);
    group_form(all);
    group_assignments(all);
    group_counts(all);
    group_direct(all);
    group_example(all);
    print_counts(all);
    return counts();
}
