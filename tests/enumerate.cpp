// Prints the least number of switches of tables, by trying every network.
//
//   enumerate [--switches K] N [M]             for all tables of N inputs, 1 to 4
//   enumerate [--switches K] --class-list N [M]
//                                              for one table of each class of those that are equal
//                                              after renaming and complementing inputs, constant
//                                              tables left out
//   enumerate [--switches K] --table TABLE [M] for one table, which may have - for free rows
//
// A line for each table and bound M, for all bounds from 0 to 7 where none is
// given: "TABLE M k". Networks have up to K switches, 7 if not given, and k is
// K + 1 where none of them does the job. With K = 0 it is a list of tables, at
// once; with 5, the numbers for four inputs take less than a second, with 7
// about ten, also for a single table and bound where no fewer are enough. The exit
// status is 2 for other words, 1 where standard output cannot be written.
#include <cstdio>
#include <string>
#include <vector>

#include "second/enumeration.hpp"

namespace {

// A number of one digit, or -1.
int digit(const std::string& word, int lowest, int highest) {
    if (word.size() != 1 || word[0] < '0' + lowest || word[0] > '0' + highest) return -1;
    return word[0] - '0';
}

struct Words {
    bool good = true;
    bool class_list = false;
    std::string table;  // empty: all of them, or the list of classes
    int switches = int(enumeration::most_switches);
    int n = -1;
    int m = -1;  // all bounds
};

// The number of inputs of a table, or -1.
int inputs_of(const std::string& table) {
    if (table.find_first_not_of("01-") != table.npos) return -1;
    for (int n = 1; n <= 4; n++) {
        if (table.size() == std::size_t(1) << n) return n;
    }
    return -1;
}

Words read_words(const std::vector<std::string>& all) {
    Words words;
    std::vector<std::string> numbers;
    for (std::size_t i = 0; i < all.size(); i++) {
        if (all[i] == "--class-list") {
            words.class_list = true;
        } else if (all[i] == "--table" && i + 1 < all.size() && words.n < 0) {
            words.table = all[++i];
            words.n = inputs_of(words.table);
            words.good = words.n > 0;
        } else if (all[i] == "--switches" && i + 1 < all.size()) {
            words.switches = digit(all[++i], 0, int(enumeration::most_switches));
        } else {
            numbers.push_back(all[i]);
        }
    }
    if (words.table.empty() && !numbers.empty()) {
        words.n = digit(numbers[0], 1, 4);
        numbers.erase(numbers.begin());
    }
    if (!numbers.empty()) words.m = digit(numbers[0], 0, int(enumeration::most_bound));
    words.good = words.good && words.n > 0 && words.switches >= 0 && numbers.size() < 2 &&
                 (numbers.empty() || words.m >= 0) && (words.table.empty() || !words.class_list);
    return words;
}

std::vector<enumeration::Rows> tables_of(const Words& words) {
    if (words.class_list) return enumeration::classes(unsigned(words.n));
    std::vector<enumeration::Rows> tables;
    for (unsigned table = 0; table <= enumeration::all_rows(unsigned(words.n)); table++)
        tables.push_back(enumeration::Rows(table));
    return tables;
}

// Row 0 first.
std::string text_of(unsigned n, enumeration::Rows table) {
    std::string text;
    for (unsigned row = 0; row < 1u << n; row++) text += (table >> row & 1) != 0 ? '1' : '0';
    return text;
}

// The numbers of all tables, or of the list of classes.
void print_tables(const Words& words, unsigned first, unsigned last) {
    const unsigned n = unsigned(words.n);
    const enumeration::Enumeration networks(n, unsigned(words.switches));
    for (unsigned m = first; m <= last; m++) {
        for (enumeration::Rows table : tables_of(words))
            std::printf("%s %u %u\n", text_of(n, table).c_str(), m, networks.least(m, table));
    }
}

// The numbers of one table.
void print_table(const Words& words, unsigned first, unsigned last) {
    enumeration::Table table;
    for (std::size_t row = 0; row < words.table.size(); row++) {
        const unsigned bit = 1u << row;
        if (words.table[row] == '1') table.on = enumeration::Rows(table.on | bit);
        if (words.table[row] == '-') table.free = enumeration::Rows(table.free | bit);
    }
    const enumeration::Search networks(unsigned(words.n), unsigned(words.switches));
    for (unsigned m = first; m <= last; m++)
        std::printf("%s %u %u\n", words.table.c_str(), m, networks.least(m, table));
}

}  // namespace

int main(int argc, char** argv) {
    const Words words = read_words(std::vector<std::string>(argv + 1, argv + argc));
    if (!words.good) {
        std::fprintf(stderr,
                     "usage: enumerate [--switches K] [--class-list] N [M]\n"
                     "       enumerate [--switches K] --table TABLE [M]\n");
        return 2;
    }
    const unsigned first = words.m >= 0 ? unsigned(words.m) : 0;
    const unsigned last = words.m >= 0 ? unsigned(words.m) : enumeration::most_bound;
    if (words.table.empty()) {
        print_tables(words, first, last);
    } else {
        print_table(words, first, last);
    }
    return std::fflush(stdout) == 0 && std::ferror(stdout) == 0 ? 0 : 1;
}
