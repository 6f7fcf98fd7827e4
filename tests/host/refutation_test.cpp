// Compares the proved library's check of refutations with that of the second
// implementation: the number, the count, and every entry of the lent slices.
//
//   c++ -std=c++17 -O2 -o refutation_test refutation_test.cpp LIBRARY.a
//   refutation_test                              runs all groups of checks
//   refutation_test --check FILE n table r m     prints the library's number and
//                                                count for a file
//   refutation_test --files FILE n table r m ... compares on these files (five
//                                                words for each), which must be
//                                                refutations, on the same with
//                                                gaps between their ids, and on
//                                                damaged copies of all these
//   refutation_test --long FILE n table r m      compares on texts of up to 16 MB
//                                                made from the file's, with gaps
//                                                and without, and on damaged
//                                                copies of them
//
// One line is printed for each group that fails. The last line is
// "N passed, M failed", in groups. The exit status is 0 only if M is 0.

#include <algorithm>
#include <cstdint>
#include <cstdio>
#include <map>
#include <string>
#include <utility>
#include <vector>

#include "../second/refutations.hpp"
#include "checks.hpp"
#include "entries.hpp"
#include "files.hpp"
#include "gapped.hpp"
#include "guarded.hpp"
#include "lent.hpp"
#include "long_refutation.hpp"
#include "made_refutations.hpp"
#include "nordkelch.h"

namespace {

using second::Outcome;

Random random_numbers(20240609);

// How often each number came up.
unsigned long seen[25] = {0};

// ---------------------------------------------------------------------------
// Slices
// ---------------------------------------------------------------------------

// A length that is enough: the least one in half of the cases.
std::size_t at_least(std::size_t length) {
    return random_numbers.below(2) == 0 ? length : length + random_numbers.below(12);
}

// A length that is too short, 0 in some cases.
std::size_t too_short(std::size_t length) {
    if (length == 0 || random_numbers.below(4) == 0) return 0;
    return random_numbers.below(2) == 0 ? length - 1 : random_numbers.below(length);
}

// Lengths that are enough, odd ones among them.
Lengths enough(const Lengths& exact) {
    return {at_least(exact.literals), at_least(exact.pairs), at_least(exact.added),
            at_least(exact.values)};
}

// Lengths of which some are too short now and then.
Lengths any_lengths(const Lengths& exact) {
    Lengths lengths = enough(exact);
    if (random_numbers.below(60) == 0) lengths.literals = too_short(exact.literals);
    if (random_numbers.below(60) == 0) lengths.pairs = too_short(exact.pairs);
    if (random_numbers.below(60) == 0) lengths.values = too_short(exact.values);
    if (random_numbers.below(10) == 0) lengths.added = too_short(exact.added);
    return lengths;
}

Slices any_slices(const Lengths& lengths, std::size_t text_size) {
    return any_slices(random_numbers, lengths, text_size);
}

// ---------------------------------------------------------------------------
// Calls of the library
// ---------------------------------------------------------------------------

// What the library made of copies of the slices.
struct Call {
    std::uint32_t number;
    std::uint32_t count;
    LentSlices slices;
};

Guarded guarded;

Call call_check(const Request& q, const std::string& text, const Slices& slices) {
    Call call = {0, std::uint32_t(random_numbers.next() >> 32), LentSlices(random_numbers, slices)};
    LentSlices& lent = call.slices;
    call.number =
        ask(nk_check_refutation, q, guarded.put(text), text.size(), lent.literals.data(),
            lent.literals.length(), lent.pairs.data(), lent.pairs.length(), lent.added.data(),
            lent.added.length(), lent.values.data(), lent.values.length(), &call.count);
    return call;
}

std::string differences(const Call& call, const Outcome& want) {
    std::string all;
    if (call.number != std::uint32_t(want.number) || call.count != want.count) {
        all += ", number " + std::to_string(call.number) + " count " + std::to_string(call.count) +
               ", second " + std::to_string(want.number) + " and " + std::to_string(want.count);
    }
    return all + differences(call.slices, want.slices);
}

// One text with slices that are filled: the library and the second
// implementation agree in everything. The answer is the second one's outcome.
Outcome check_same(Group& group, const Request& q, const std::string& text, const Slices& slices) {
    const Outcome want = second::check_refutation(q, text, slices);
    const Call call = call_check(q, text, slices);
    const std::string different = differences(call, want);
    const bool same = different.empty();
    group.check(same, same ? "" : numbers_of(q) + " " + shown(text) + lengths_of(slices),
                same ? "" : different.substr(2));
    if (want.number >= 0 && want.number < 25) seen[want.number]++;
    return want;
}

Outcome check_same(Group& group, const Request& q, const std::string& text,
                   const Lengths& lengths) {
    return check_same(group, q, text, any_slices(lengths, text.size()));
}

// One text whose number and count are written out: both must give them.
Outcome check_number(Group& group, const Request& q, const std::string& text,
                     const Lengths& lengths, int number, std::uint32_t count,
                     const std::string& name) {
    const Outcome want = check_same(group, q, text, lengths);
    const bool good = want.number == number && want.count == count;
    group.check(good, good ? "" : name + " " + shown(text),
                good ? ""
                     : "second: " + std::to_string(want.number) + " and " +
                           std::to_string(want.count) + ", not " + std::to_string(number) +
                           " and " + std::to_string(count));
    return want;
}

// ---------------------------------------------------------------------------
// Expected numbers that are written out
// ---------------------------------------------------------------------------

// The request of P4, "1 01 0 1": V is 4, C 6, T 11. Its clauses are
// 1 (-2), 2 (3), 3 (-1 -2 3), 4 (-1 2 -3), 5 (4), 6 (-4 1).
const Request p4 = {1, 2, 0, 1};
const std::string good = "7 0 5 6 1 2 4 0\n";
// An addition that is accepted, and the empty clause behind it.
const std::string first = "7 -1 0 1 2 4 0\n";
const std::string last = "8 0 5 6 7 0\n";
// Two additions with seven and six bytes of literals.
const std::string long_7 = "7 -1 3 -2 0 1 0\n";
const std::string long_8 = "8 4 -3 1 0 5 0\n";

struct Row {
    std::string name;
    std::string text;
    int number;
    std::uint32_t count;
};

// Rows for the request of P4, each with slices of several lengths and
// contents. There is a place for each clause.
void group_of_rows(const std::string& name, const std::vector<Row>& rows) {
    Group group(name);
    for (const Row& row : rows) {
        const Lengths exact = exact_lengths(p4, lines_in(row.text));
        check_number(group, p4, row.text, exact, row.number, row.count, row.name);
        for (unsigned round = 0; round < 6; round++) {
            check_number(group, p4, row.text, enough(exact), row.number, row.count, row.name);
        }
    }
    group.finish();
}

void group_p4_to_p7() {
    group_of_rows("P4 to P7", {{"P4", "7 0 5 6 1 2 4 0\n", 0, 0},
                               {"P5", "7 0 5 6 1 2 0\n", 21, 0},
                               {"P6", "7 0 5 6 3 0\n", 20, 0},
                               {"P7", "8 0 5 6 1 2 4 0\n", 0, 0}});
}

void group_whole_line() {
    group_of_rows(
        "the form of the whole line comes first",
        {{"letter before the id is looked at", "8 0 x\n", 16, 0},
         {"letter before a literal is looked at", "7 9 0 x\n", 16, 0},
         {"letter before a variable twice", "7 1 1 0 x\n", 16, 0},
         {"letter behind a hint that doesn't stand", "7 0 99 x 0\n", 16, 0},
         {"letter behind a satisfied hint", "7 0 5 5 x 0\n", 16, 0},
         {"end missing, id not above C", "6 0 5 6\n", 16, 0},
         {"newline missing, id not above C", "6 0 5 6 0", 16, 0},
         {"newline missing, id not above the last", first + "7 0 5 6 7 0", 16, 1},
         {"newline missing, literal above V", "7 5 0 5 0", 16, 0},
         {"newline missing, hint that doesn't stand", "7 0 99 0", 16, 0},
         {"newline missing, hints spent", "7 0 0", 16, 0},
         {"newline missing, deletion that can't be", "7 d 7 0", 16, 0},
         {"deletion with a bad end", "7 d 99 x\n", 16, 0},
         {"deletion with a negative id behind", "7 d 99 -1 0\n", 16, 0},
         {"bad second line", first + "9 0 x\n", 16, 1},
         {"refused line before a bad line", "6 0 0\nx\n", 17, 0},
         {"refused line before an unfinished line", "7 5 0 0\nx", 18, 0},
         {"hint behind the conflict that doesn't stand", "7 0 5 6 1 2 4 99 0\n", 0, 0},
         {"hint behind the conflict, nine digits", "7 0 5 6 1 2 4 999999999 0\n", 0, 0},
         {"own id behind the conflict", "7 0 5 6 1 2 4 7 0\n", 0, 0},
         {"satisfied hint behind the conflict", "7 0 5 6 1 2 4 5 3 0\n", 0, 0},
         {"hints behind the conflict of a clause", "7 -1 0 1 2 4 99 5 0\n" + last, 0, 1},
         {"negative hint behind the conflict", "7 0 5 6 1 2 4 -1 0\n", 16, 0},
         {"letter behind the conflict", "7 0 5 6 1 2 4 x 0\n", 16, 0},
         {"letter for the end", "7 0 5 6 1 2 4 x\n", 16, 0},
         {"ten digits behind the conflict", "7 0 5 6 1 2 4 1000000000 0\n", 16, 0},
         {"leading zero behind the conflict", "7 0 5 6 1 2 4 01 0\n", 16, 0},
         {"two spaces behind the conflict", "7 0 5 6 1 2 4  0\n", 16, 0},
         {"no end behind the conflict", "7 0 5 6 1 2 4\n", 16, 0}});
}

void group_ends_of_lines() {
    const std::string zero(1, '\0');
    group_of_rows(
        "ends of lines and of the text",
        {{"empty text", "", 23, 0},
         {"text ends behind a clause", first, 23, 1},
         {"text ends behind a deletion", first + "8 d 7 0\n", 23, 1},
         {"text ends behind two clauses", long_7 + long_8, 23, 2},
         {"newline missing", "7 0 5 6 1 2 4 0", 16, 0},
         {"newline missing at the end", first + "8 0 5 6 7 0", 16, 1},
         {"newline missing behind a clause", "7 -1 0 1 2 4 0", 16, 0},
         {"one byte", "7", 16, 0},
         {"one newline", "\n", 16, 0},
         {"one space", " ", 16, 0},
         {"empty line first", "\n" + good, 16, 0},
         {"empty line between", first + "\n" + last, 16, 1},
         {"empty line last", first + "\n", 16, 1},
         {"c line", "c\n" + good, 16, 0},
         {"c line with words", "c 7 0 5 6 1 2 4 0\n" + good, 16, 0},
         {"text behind the end", good + "x", 0, 0},
         {"newlines behind the end", good + "\n\n", 0, 0},
         {"bytes behind the end", good + zero + "\xff\r\n -0", 0, 0},
         {"the same line behind the end", good + good, 0, 0},
         {"deletion behind the end", first + last + "9 d 7 0\n", 0, 1},
         {"clause behind the end", first + last + "8 4 0 5 0\n", 0, 1},
         {"carriage return", "7 0 5 6 1 2 4 0\r\n", 16, 0},
         {"carriage return for the newline", "7 0 5 6 1 2 4 0\r", 16, 0},
         {"zero byte before the newline", "7 0 5 6 1 2 4 0" + zero + "\n", 16, 0},
         {"zero byte for the newline", "7 0 5 6 1 2 4 0" + zero, 16, 0},
         {"zero byte first", zero + good, 16, 0},
         {"space before the newline", "7 0 5 6 1 2 4 0 \n", 16, 0},
         {"space before the id", " 7 0 5 6 1 2 4 0\n", 16, 0},
         {"two spaces behind the id", "7  0 5 6 1 2 4 0\n", 16, 0},
         {"two spaces behind the first 0", "7 0  5 6 1 2 4 0\n", 16, 0},
         {"two spaces between hints", "7 0 5  6 1 2 4 0\n", 16, 0},
         {"two spaces between literals", "7 -1  3 0 1 2 4 0\n", 16, 0},
         {"tab behind the id", "7\t0 5 6 1 2 4 0\n", 16, 0},
         {"tab between hints", "7 0 5\t6 1 2 4 0\n", 16, 0},
         {"form feed between hints", "7 0 5\f6 1 2 4 0\n", 16, 0},
         {"newline between hints", "7 0 5\n6 1 2 4 0\n", 16, 0},
         {"newline behind the id", "7\n0 5 6 1 2 4 0\n", 16, 0},
         {"newline behind the first 0", "7 0\n5 6 1 2 4 0\n", 16, 0},
         {"two lines in one", "7 -1 0 1 2 4 0 8 0 5 6 7 0\n", 16, 0},
         {"comma", "7 0 5,6 1 2 4 0\n", 16, 0}});
}

void group_forms() {
    group_of_rows("forms of additions and deletions",
                  {{"id alone", "7\n", 16, 0},
                   {"id and a space", "7 \n", 16, 0},
                   {"second 0 missing", "7 0\n", 16, 0},
                   {"second 0 missing behind literals", "7 1 0\n", 16, 0},
                   {"no 0 at all", "7 1 2\n", 16, 0},
                   {"empty clause without hints", "7 0 0\n", 21, 0},
                   {"clause without hints", "7 1 0 0\n", 21, 0},
                   {"three 0", "7 0 0 0\n", 16, 0},
                   {"three 0, hints between", "7 0 5 0 6 0\n", 16, 0},
                   {"0 behind the end", "7 0 5 6 1 2 4 0 0\n", 16, 0},
                   {"number behind the end", "7 0 5 6 1 2 4 0 1\n", 16, 0},
                   {"d alone", "7 d\n", 16, 0},
                   {"d and a space", "7 d \n", 16, 0},
                   {"deletion of nothing", "7 d 0\n", 23, 0},
                   {"deletion of nothing, then the end", "7 d 0\n" + good, 0, 0},
                   {"deletion without 0", "7 d 1\n", 16, 0},
                   {"deletion with two 0", "7 d 1 0 0\n", 16, 0},
                   {"deletion with only two 0", "7 d 0 0\n", 16, 0},
                   {"deletion with 0 between", "7 d 1 0 2 0\n", 16, 0},
                   {"deletion with hints", "7 d 1 0 5 0\n", 16, 0},
                   {"deletion with a space last", "7 d 1 0 \n", 16, 0},
                   {"deletion with two spaces before d", "7  d 1 0\n", 16, 0},
                   {"deletion with two spaces behind d", "7 d  1 0\n", 16, 0},
                   {"deletion with a carriage return", "7 d 1 0\r\n", 16, 0},
                   {"d and number in one word", "7 d1 0\n", 16, 0},
                   {"id and d in one word", "7d 1 0\n", 16, 0},
                   {"two d in one word", "7 dd 1 0\n", 16, 0},
                   {"two d", "7 d d 1 0\n", 16, 0},
                   {"large D", "7 D 1 0\n", 16, 0},
                   {"d behind a literal", "7 1 d 0\n", 16, 0},
                   {"d behind the first 0", "7 0 d 1 0\n", 16, 0},
                   {"d without id", "d 1 0\n", 16, 0},
                   {"space before d", " d 1 0\n", 16, 0},
                   {"letter as a deletion's id", "x d 1 0\n", 16, 0},
                   {"negative id of a deletion", "-1 d 1 0\n", 16, 0},
                   {"-0 as a deletion's id", "-0 d 1 0\n", 16, 0},
                   {"leading zero in a deletion's id", "01 d 1 0\n", 16, 0},
                   {"ten digits in a deletion's id", "1000000000 d 1 0\n", 16, 0},
                   {"0 as a deletion's id", "0 d 1 0\n" + good, 0, 0},
                   {"nine digits in a deletion's id", "999999999 d 1 0\n" + good, 0, 0},
                   {"a deletion's id is the next one", "7 d 1 0\n" + good, 0, 0},
                   {"a deletion's id is an original one", "1 d 1 0\n" + good, 0, 0},
                   {"negative id to delete", "7 d -1 0\n", 16, 0},
                   {"negative id of an added clause", first + "8 d -7 0\n", 16, 1},
                   {"leading zero in an id to delete", "7 d 01 0\n", 16, 0},
                   {"ten digits in an id to delete", "7 d 4294967297 0\n", 16, 0},
                   {"nine digits in an id to delete", "7 d 999999999 0\n", 19, 0},
                   {"plus in an id to delete", "7 d +1 0\n", 16, 0}});
}

void group_numbers() {
    group_of_rows("form of a number",
                  {{"negative id", "-7 0 5 6 1 2 4 0\n", 16, 0},
                   {"plus before the id", "+7 0 5 6 1 2 4 0\n", 16, 0},
                   {"leading zero in the id", "07 0 5 6 1 2 4 0\n", 16, 0},
                   {"ten digits, zeros first", "0000000007 0 5 6 1 2 4 0\n", 16, 0},
                   {"nine digits, zeros first", "000000007 0 5 6 1 2 4 0\n", 16, 0},
                   {"ten digits in the id", "1000000007 0 5 6 1 2 4 0\n", 16, 0},
                   {"id and 2^32", "4294967303 0 5 6 1 2 4 0\n", 16, 0},
                   {"id and 2^64", "18446744073709551623 0 5 6 1 2 4 0\n", 16, 0},
                   {"a thousand digits", std::string(1000, '7') + " 0 5 6 1 2 4 0\n", 16, 0},
                   {"nine digits in the id", "999999999 0 5 6 1 2 4 0\n", 0, 0},
                   {"nine digits in the id, 6 last", "100000006 0 5 6 1 2 4 0\n", 0, 0},
                   {"ten digits in a clause's id", "1000000000 -1 0 1 2 4 0\n", 16, 0},
                   {"clause's id and 2^32", "4294967303 -1 0 1 2 4 0\n", 16, 0},
                   {"letter in the id", "7a 0 5 6 1 2 4 0\n", 16, 0},
                   {"two 0 in a word", "7 00 5 6 1 2 4 0\n", 16, 0},
                   {"-0 for the first 0", "7 -0 5 6 1 2 4 0\n", 16, 0},
                   {"-0 for the last 0", "7 0 5 6 1 2 4 -0\n", 16, 0},
                   {"+0", "7 +0 5 6 1 2 4 0\n", 16, 0},
                   {"two 0 in the last word", "7 0 5 6 1 2 4 00\n", 16, 0},
                   {"leading zero in a hint", "7 0 05 6 1 2 4 0\n", 16, 0},
                   {"plus before a hint", "7 0 +5 6 1 2 4 0\n", 16, 0},
                   {"negative hint", "7 0 -5 6 1 2 4 0\n", 16, 0},
                   {"resolution line", "7 0 -1 2 3 0\n", 16, 0},
                   {"resolution line with a literal", "7 1 0 -3 1 -2 5 0\n", 16, 0},
                   {"ten digits in a hint", "7 0 1000000005 6 1 2 4 0\n", 16, 0},
                   {"hint and 2^32", "7 0 4294967301 6 1 2 4 0\n", 16, 0},
                   {"nine digits in a hint", "7 0 999999999 0\n", 19, 0},
                   {"nine digits in a hint, 5 last", "7 0 100000005 0\n", 19, 0},
                   {"nine digits in a literal", "7 999999999 0 5 0\n", 18, 0},
                   {"nine digits in a negative literal", "7 -999999999 0 5 0\n", 18, 0},
                   {"ten digits in a literal", "7 1000000004 0 5 0\n", 16, 0},
                   {"literal and 2^32", "7 4294967300 0 5 0\n", 16, 0},
                   {"ten digits in a negative literal", "7 -1000000004 0 5 0\n", 16, 0},
                   {"leading zero in a literal", "7 04 0 5 0\n", 16, 0},
                   {"leading zero in a negative literal", "7 -01 0 1 2 4 0\n", 16, 0},
                   {"two minus", "7 --1 0 1 2 4 0\n", 16, 0},
                   {"minus alone", "7 - 0 5 0\n", 16, 0},
                   {"minus and space", "7 - 1 0 1 2 4 0\n", 16, 0},
                   {"minus behind", "7 1- 0 1 2 4 0\n", 16, 0},
                   {"minus between", "7 4-1 0 5 0\n", 16, 0},
                   {"plus before a literal", "7 +4 0 5 0\n", 16, 0},
                   {"point", "7 4. 0 5 0\n", 16, 0},
                   {"x between", "7 0x4 0 5 0\n", 16, 0},
                   {"byte below 0", "7 0 5/ 6 1 2 4 0\n", 16, 0},
                   {"byte above 9", "7 0 5: 6 1 2 4 0\n", 16, 0},
                   {"byte below 0 alone", "7 0 5 6 1 2 4 /\n", 16, 0},
                   {"byte 176", "7 0 5 6 1 2 4 \xb0\n", 16, 0}});
}

void group_ids() {
    group_of_rows("ids of additions",
                  {{"id 0", "0 0 5 6 1 2 4 0\n", 17, 0},
                   {"id 0, a clause", "0 -1 0 1 2 4 0\n", 17, 0},
                   {"id 1", "1 0 5 6 1 2 4 0\n", 17, 0},
                   {"id C", "6 0 5 6 1 2 4 0\n", 17, 0},
                   {"id C, a clause", "6 -1 0 1 2 4 0\n", 17, 0},
                   {"id C in the second line", first + "6 0 5 6 7 0\n", 17, 1},
                   {"id 0 in the second line", first + "0 0 5 6 7 0\n", 17, 1},
                   {"id C+2", "8 0 5 6 1 2 4 0\n", 0, 0},
                   {"id C+2, a clause", "8 -1 0 1 2 4 0\n", 23, 1},
                   {"17 before 18", "6 9 0 99 0\n", 17, 0},
                   {"17 before 19", "6 0 99 0\n", 17, 0},
                   {"17 before 20", "6 0 3 0\n", 17, 0},
                   {"17 before 21", "6 0 0\n", 17, 0},
                   {"17 before 18, not above the last", first + "7 9 0 99 0\n", 17, 1},
                   {"17 before 19, not above the last", first + "7 0 99 0\n", 17, 1},
                   {"17 before 20, not above the last", first + "7 0 3 0\n", 17, 1},
                   {"17 before 21, not above the last", first + "7 0 0\n", 17, 1},
                   {"the next id", first + last, 0, 1},
                   {"id twice, the empty clause", first + "7 0 5 6 7 0\n", 17, 1},
                   {"id twice, a clause", first + "7 1 0 5 6 0\n", 17, 1},
                   {"id left out", first + "9 0 5 6 7 0\n", 0, 1},
                   {"id free behind a deletion", first + "8 d 7 0\n8 0 5 6 1 2 4 0\n", 0, 1},
                   {"id of a deleted clause", first + "8 d 7 0\n7 0 5 6 1 2 4 0\n", 17, 1},
                   {"a deletion takes no id", first + "8 d 1 0\n8 0 5 6 7 0\n", 0, 1},
                   {"a large id of a deletion", "90 d 1 0\n7 0 5 6 1 2 4 0\n", 0, 0},
                   {"the largest id of a deletion, then a clause",
                    "999999999 d 1 0\n" + first + "999999999 d 7 0\n8 0 5 6 1 2 4 0\n", 0, 1},
                   {"a deletion's id is above, the clause's too", "50 d 1 0\n51 0 5 6 1 2 4 0\n",
                    0, 0}});
}

// Ids that rise and leave numbers out. A clause with id 20, one with 30, one
// with 40; 10, 15, 25 and so on are numbers that no clause has.
const std::string first_20 = "20 -1 0 1 2 4 0\n";
const std::string second_30 = "30 4 -3 0 5 0\n";
const std::string third_40 = "40 4 -2 0 5 0\n";
const std::string three = first_20 + second_30 + third_40;
const std::string last_50 = "50 0 5 6 20 0\n";

void group_gaps() {
    group_of_rows(
        "ids with gaps",
        {{"a gap in front, the empty clause", "20 0 5 6 1 2 4 0\n", 0, 0},
         {"a gap in front", first_20 + "21 0 5 6 20 0\n", 0, 1},
         {"a gap between", first + "9 0 5 6 7 0\n", 0, 1},
         {"gaps everywhere", three + last_50, 0, 3},
         {"a large gap in front", "999999998 -1 0 1 2 4 0\n999999999 0 5 6 999999998 0\n", 0, 1},
         {"a large gap before the empty clause", first + "999999999 0 5 6 7 0\n", 0, 1},
         {"a large gap between", first + "500000000 1 0 5 6 0\n500000001 0 5 6 7 0\n", 0, 2},
         {"one, then many left out",
          first + "8 4 0 5 0\n10 4 -3 0 5 0\n1000 4 -2 0 5 0\n1001 0 5 6 7 0\n", 0, 4},
         {"a d line's id is not one of the earlier ones",
          "9 1 0 5 6 0\n50 d 9 0\n10 0 5 6 1 2 4 0\n", 0, 1},
         {"no id is left above the largest", "999999999 -1 0 1 2 4 0\n999999999 0 5 6 1 2 4 0\n",
          17, 1},
         {"ten digits above the largest", "999999999 -1 0 1 2 4 0\n1000000000 0 5 6 1 2 4 0\n",
          16, 1},
         {"below the last, a number that was left out", first_20 + "10 1 0 5 6 0\n", 17, 1},
         {"just below the last", first_20 + "19 1 0 5 6 0\n", 17, 1},
         {"the last id again", first_20 + "20 1 0 5 6 0\n", 17, 1},
         {"just above the last", first_20 + "21 1 0 5 6 0\n22 0 5 6 20 0\n", 0, 2},
         {"the next id after C, behind a gap", first_20 + "7 1 0 5 6 0\n", 17, 1},
         {"between two ids", first_20 + second_30 + "25 1 0 5 6 0\n", 17, 2},
         {"an earlier id that is not the last", three + "20 1 0 5 6 0\n", 17, 3},
         {"C behind gaps", three + "6 1 0 5 6 0\n", 17, 3},
         {"the empty clause with the last id", first_20 + "20 0 5 6 20 0\n", 17, 1},
         {"the empty clause below the last", first_20 + "19 0 5 6 20 0\n", 17, 1},
         {"the empty clause at C", first_20 + "6 0 5 6 20 0\n", 17, 1},
         {"the empty clause between two ids", first_20 + second_30 + "25 0 5 6 20 0\n", 17, 2},
         {"the empty clause just above the last", first_20 + "21 0 5 6 20 0\n", 0, 1},
         {"a good line after one with 17 is unread", first_20 + "20 4 0 5 0\n" + last_50, 17, 1},
         {"the empty clause with the id of a clause", "9 1 0 5 6 0\n9 0 5 6 1 2 4 0\n", 17, 1}});
}

// A hint names a clause by its id. A number that no clause has doesn't stand,
// wherever it lies.
void group_hints_with_gaps() {
    std::vector<Row> rows = {
        {"the first", three + "50 0 5 6 20 0\n", 0, 3},
        {"the second, satisfied", three + "50 0 5 30 0\n", 20, 3},
        {"the third, satisfied", three + "50 0 5 40 0\n", 20, 3},
        {"the second, two unset", three + "50 0 30 0\n", 20, 3},
        {"the second sets a literal", three + "50 -4 0 6 1 2 4 0\n51 0 5 50 0\n", 0, 4},
        {"all three in one line", three + "50 -4 3 2 0 30 0\n51 -4 3 2 0 40 0\n", 20, 3},
        {"each is found as the conflict",
         three + "50 -1 0 20 0\n51 4 -3 0 30 0\n52 4 -2 0 40 0\n53 0 5 6 50 0\n", 0, 6},
        {"own id", three + "50 0 5 6 50 0\n", 19, 3},
        {"an id of a later line", three + "50 0 5 6 60 0\n60 1 0 5 6 0\n", 19, 3},
        {"an original clause, C", three + "50 0 5 6 1 2 4 0\n", 0, 3},
        {"C+1, which no clause has", three + "50 0 7 0\n", 19, 3},
        {"behind the conflict any number is unread", three + "50 0 5 6 20 25 0\n", 0, 3},
        {"19 before 20, a number between", three + "50 0 25 3 0\n", 19, 3},
        {"20 before 19, a number between", three + "50 0 3 25 0\n", 20, 3},
        {"a number between, of a clause", three + "50 1 0 25 0\n", 19, 3},
        {"place of the first in a dense count", three + "50 0 5 6 8 0\n", 19, 3},
        {"0-based place", three + "50 0 5 6 9 0\n", 19, 3}};
    for (const int id : {7, 10, 19, 21, 25, 29, 31, 35, 39, 41, 45, 50, 51, 99, 999999999}) {
        const std::string number = std::to_string(id);
        rows.push_back({"no clause has " + number, three + "50 0 " + number + " 0\n", 19, 3});
        rows.push_back({"no clause has " + number + ", behind good hints",
                        three + "50 0 5 6 " + number + " 0\n", 19, 3});
    }
    // one record, two, three, up to seven, with ids 10, 20, and so on: each is
    // found, and the numbers beside each are not
    std::string clauses;
    for (int count = 1; count <= 7; count++) {
        clauses += std::to_string(10 * count) + " -1 0 1 2 4 0\n";
        const std::string start = clauses + std::to_string(10 * count + 1) + " 0 5 6 ";
        for (int k = 0; k <= count + 1; k++) {
            for (const int beside : {-1, 0, 1}) {
                const int id = 10 * k + beside;
                if (id <= 6) continue;
                const bool stands = beside == 0 && k >= 1 && k <= count;
                rows.push_back({std::to_string(id) + " of " + std::to_string(count),
                                start + std::to_string(id) + " 0\n", stands ? 0 : 19,
                                std::uint32_t(count)});
            }
        }
    }
    group_of_rows("hints, ids with gaps", rows);
}

void group_deletions_with_gaps() {
    std::vector<Row> rows = {
        {"the first", three + "50 d 20 0\n50 0 5 6 1 2 4 0\n", 0, 3},
        {"the second", three + "50 d 30 0\n" + last_50, 0, 3},
        {"the third", three + "50 d 40 0\n" + last_50, 0, 3},
        {"the second and the third", three + "50 d 40 30 0\n" + last_50, 0, 3},
        {"all three", three + "50 d 20 30 40 0\n50 0 5 6 1 2 4 0\n", 0, 3},
        {"original ones beside", three + "50 d 1 30 6 0\n" + last_50, 0, 3},
        {"the first, then as a hint", three + "50 d 20 0\n" + last_50, 19, 3},
        {"the second, then as a hint", three + "50 d 30 0\n50 -4 3 0 30 0\n", 19, 3},
        {"the last, then as a hint", three + "50 d 40 0\n50 -4 2 0 40 0\n", 19, 3},
        {"the first twice", three + "50 d 20 20 0\n", 19, 3},
        {"the second twice, in two lines", three + "50 d 30 0\n50 d 30 0\n", 19, 3},
        {"the last twice, another between", three + "50 d 40 20 40 0\n", 19, 3},
        {"a deleted id again", first_20 + "20 d 20 0\n20 -1 0 1 2 4 0\n", 17, 1},
        {"a deleted id again, the empty clause", first_20 + "20 d 20 0\n20 0 5 6 1 2 4 0\n", 17,
         1},
        {"a deleted id again, behind later ones", three + "50 d 30 0\n30 4 -3 0 5 0\n", 17, 3},
        {"a deleted id again, the last", three + "50 d 40 0\n40 4 -2 0 5 0\n", 17, 3},
        {"all deleted, the last id again", three + "50 d 20 30 40 0\n40 0 5 6 1 2 4 0\n", 17, 3},
        {"all deleted, below the last", three + "50 d 20 30 40 0\n35 0 5 6 1 2 4 0\n", 17, 3},
        {"all deleted, above the last", three + "50 d 20 30 40 0\n41 0 5 6 1 2 4 0\n", 0, 3},
        {"added again under another id",
         first_20 + "20 d 20 0\n30 -1 0 1 2 4 0\n40 0 5 6 30 0\n", 0, 2},
        {"added again under another id, the first as a hint",
         first_20 + "20 d 20 0\n30 -1 0 1 2 4 0\n40 0 5 6 20 0\n", 19, 2},
        {"the d line's id is that of a record", three + "30 d 1 0\n" + last_50, 0, 3},
        {"the d line's id is between", three + "25 d 30 0\n" + last_50, 0, 3},
        {"the d line's id is below C", three + "1 d 30 0\n" + last_50, 0, 3},
        {"a d line with a high id before the clauses", "500 d 1 0\n" + three + last_50, 0, 3}};
    for (const int id : {7, 10, 19, 21, 25, 29, 31, 35, 39, 41, 50, 99, 999999999}) {
        const std::string number = std::to_string(id);
        rows.push_back({"no clause has " + number, three + "50 d " + number + " 0\n", 19, 3});
        rows.push_back({"behind a good one, no clause has " + number,
                        three + "50 d 30 1 " + number + " 40 0\n", 19, 3});
    }
    group_of_rows("deletions, ids with gaps", rows);
}

void group_literals() {
    group_of_rows("literals",
                  {{"V", "7 4 0 5 0\n8 0 5 6 1 2 4 0\n", 0, 1},
                   {"-V", "7 -4 0 6 1 2 4 0\n8 0 5 7 0\n", 0, 1},
                   {"V+1", "7 5 0 5 0\n", 18, 0},
                   {"-V-1", "7 -5 0 5 0\n", 18, 0},
                   {"V+1 behind", "7 4 5 0 5 0\n", 18, 0},
                   {"V+1 before", "7 5 4 0 5 0\n", 18, 0},
                   {"literal twice", "7 4 4 0 5 0\n", 18, 0},
                   {"literal and complement", "7 4 -4 0 5 0\n", 18, 0},
                   {"complement first", "7 -4 4 0 5 0\n", 18, 0},
                   {"negative literal twice", "7 -1 -1 0 1 2 4 0\n", 18, 0},
                   {"twice with others between", "7 4 -1 3 4 0 5 0\n", 18, 0},
                   {"twice, other sign, others between", "7 1 2 3 -1 0 5 0\n", 18, 0},
                   {"twice, later than V+1", "7 1 5 1 0 5 0\n", 18, 0},
                   {"all variables", "7 1 2 3 4 0 5 0\n8 0 5 6 1 2 4 0\n", 0, 1},
                   {"all variables, negative", "7 -1 -2 -3 -4 0 1 0\n8 0 5 6 1 2 4 0\n", 0, 1},
                   {"18 before 19", "7 5 0 99 0\n", 18, 0},
                   {"18 before 20", "7 5 0 3 0\n", 18, 0},
                   {"18 before 21", "7 5 0 0\n", 18, 0},
                   {"in a later line", first + "8 4 4 0 5 0\n", 18, 1},
                   {"a variable of an earlier line", first + "8 -1 0 7 0\n" + "9 1 0 5 6 0\n", 23,
                    3}});
}

void group_hints() {
    group_of_rows("hints",
                  {{"unit clause already true", "7 0 5 5 0\n", 20, 0},
                   {"satisfied, the rest false", "7 0 5 6 6 1 2 4 0\n", 20, 0},
                   {"satisfied, one unset", "7 -1 0 6 1 2 4 0\n", 20, 0},
                   {"satisfied, three literals", "7 0 5 6 1 2 3 4 0\n", 20, 0},
                   {"satisfied between", "7 0 5 6 5 1 2 4 0\n", 20, 0},
                   {"satisfied by the line", "7 -3 0 2 0\n", 20, 0},
                   {"two unset", "7 0 6 0\n", 20, 0},
                   {"three unset", "7 0 3 0\n", 20, 0},
                   {"two unset, one false", "7 0 5 6 3 0\n", 20, 0},
                   {"another order", "7 0 2 1 5 6 4 0\n", 0, 0},
                   {"the conflict is another clause", "7 0 5 1 2 4 6 0\n", 0, 0},
                   {"conflict too early", "7 0 4 5 6 1 2 0\n", 20, 0},
                   {"own id, nothing yet", "7 0 7 0\n", 19, 0},
                   {"own id of a clause", "7 1 0 7 0\n", 19, 0},
                   {"own id behind good hints", "7 -1 0 1 2 7 4 0\n", 19, 0},
                   {"own id of a later line", first + "8 0 5 6 8 7 0\n", 19, 1},
                   {"a later id", "7 0 8 0\n", 19, 0},
                   {"19 before 20", "7 0 99 3 0\n", 19, 0},
                   {"20 before 19", "7 0 3 99 0\n", 20, 0},
                   {"19 behind good hints", "7 0 5 6 99 0\n", 19, 0},
                   {"19 before 21", "7 0 5 99 0\n", 19, 0},
                   {"20 before 21", "7 0 5 3 0\n", 20, 0},
                   {"21, no hints", "7 0 0\n", 21, 0},
                   {"21, no hints of a clause", "7 -1 0 0\n", 21, 0},
                   {"21, one hint", "7 0 5 0\n", 21, 0},
                   {"21, last hint left out", "7 -1 0 1 2 0\n", 21, 0},
                   {"21 in a later line", first + "8 0 5 6 0\n", 21, 1},
                   {"first hint is the conflict", "7 4 0 5 0\n", 23, 1},
                   {"first hint is the conflict, two literals", "7 4 -1 0 5 0\n", 23, 1},
                   {"a clause that shares no variable", "7 -1 0 5 1 2 4 0\n", 23, 1},
                   {"an added clause", first + last, 0, 1},
                   {"an added clause as a unit", "7 1 0 5 6 0\n8 0 7 1 2 4 0\n", 0, 1},
                   {"an added clause, satisfied", "7 1 0 5 6 0\n8 0 5 6 7 1 2 4 0\n", 20, 1},
                   {"an added clause, two unset", "7 4 -1 0 5 0\n8 0 7 0\n", 20, 1},
                   {"an added clause that is the line's",
                    first + "8 -1 0 7 0\n9 0 5 6 8 0\n", 0, 2},
                   {"an added clause that is within the line's",
                    first + "8 2 -1 3 0 7 0\n9 0 5 6 7 0\n", 0, 2},
                   {"values of a line are gone in the next", "7 1 0 5 6 0\n8 0 5 7 0\n", 21, 1}});
}

void group_deletions() {
    group_of_rows("deletions",
                  {{"original clause", "7 d 5 0\n" + good, 0, 0},
                   {"original clause often", "7 d 1 1 1 0\n7 d 1 0\n" + good, 0, 0},
                   {"all original clauses", "7 d 1 2 3 4 5 6 0\n" + good, 0, 0},
                   {"nothing added yet", "7 d 7 0\n", 19, 0},
                   {"behind original clauses", "7 d 1 7 0\n", 19, 0},
                   {"id above", first + "8 d 8 0\n", 19, 1},
                   {"the last one", first + "8 d 7 0\n8 0 5 6 1 2 4 0\n", 0, 1},
                   {"twice in a line", first + "8 d 7 7 0\n" + last, 19, 1},
                   {"twice in two lines", first + "8 d 7 0\n8 d 7 0\n" + last, 19, 1},
                   {"twice, another between", long_7 + long_8 + "9 d 7 8 7 0\n", 19, 2},
                   {"deleted clause as a hint", first + "8 d 7 0\n" + last, 19, 1},
                   {"deleted clause behind the conflict",
                    first + "8 d 7 0\n8 0 5 6 1 2 4 7 0\n", 0, 1},
                   {"the other one stays",
                    long_7 + "8 -1 0 1 2 4 0\n9 d 7 0\n9 0 5 6 8 0\n", 0, 2},
                   {"equal clause stays", first + "8 -1 0 7 0\n9 d 7 0\n9 0 5 6 8 0\n", 0, 2},
                   {"equal clause deleted", first + "8 -1 0 7 0\n9 d 8 0\n9 0 5 6 7 0\n", 0, 2},
                   {"added again", first + "8 d 7 0\n8 -1 0 1 2 4 0\n9 0 5 6 8 0\n", 0, 2},
                   {"added again, the first as a hint",
                    first + "8 d 7 0\n8 -1 0 1 2 4 0\n9 0 5 6 7 0\n", 19, 2},
                   {"two of three",
                    long_7 + long_8 + "9 -1 0 1 2 4 0\n9 d 8 7 0\n10 0 5 6 9 0\n", 0, 3},
                   {"two of three, one as a hint",
                    long_7 + long_8 + "9 -1 0 1 2 4 0\n9 d 9 7 0\n10 0 5 6 9 0\n", 19, 3}});
}

// "22 no place for the pair of a non-empty clause; then hints": the record of a
// clause has three entries.
void group_places() {
    struct PlaceRow {
        std::string name;
        std::string text;
        std::size_t added;
        int number;
        std::uint32_t count;
    };
    const std::string two = long_7 + long_8;
    const std::string again = "8 d 7 0\n8 -1 0 1 2 4 0\n";
    const PlaceRow rows[] = {
        {"no slice, empty clause", good, 0, 0, 0},
        {"one entry, empty clause", good, 1, 0, 0},
        {"two entries, empty clause", good, 2, 0, 0},
        {"no slice, deletion", "7 d 1 0\n" + good, 0, 0, 0},
        {"no slice", first, 0, 22, 0},
        {"one entry", first, 1, 22, 0},
        {"two entries", first, 2, 22, 0},
        {"three entries", first + last, 3, 0, 1},
        {"four entries", first + last, 4, 0, 1},
        {"five entries", first + last, 5, 0, 1},
        {"one place, two clauses", two, 3, 22, 1},
        {"one place and an entry, two clauses", two, 4, 22, 1},
        {"one place and two entries, two clauses", two, 5, 22, 1},
        {"two places, two clauses", two, 6, 23, 2},
        {"two places and an entry, two clauses", two, 7, 23, 2},
        {"two places and two entries, two clauses", two, 8, 23, 2},
        {"two places, three clauses with gaps", three, 6, 22, 2},
        {"two places and two entries, three clauses with gaps", three, 8, 22, 2},
        {"three places, three clauses with gaps", three + last_50, 9, 0, 3},
        {"a place does not go by the id", "500 -1 0 1 2 4 0\n501 0 5 6 500 0\n", 3, 0, 1},
        {"a deleted clause keeps its place", first + again, 3, 22, 1},
        {"a deleted clause keeps its place, four entries", first + again, 4, 22, 1},
        {"a deleted clause keeps its place, five entries", first + again, 5, 22, 1},
        {"a place for the deleted one and the next", first + again, 6, 23, 2},
        {"all places taken, empty clause", first + last, 3, 0, 1},
        {"16 before 22", "7 -1 0 1 2 4 x\n", 0, 16, 0},
        {"16 before 22, unfinished", "7 -1 0 1 2 4 0", 0, 16, 0},
        {"17 before 22", "6 -1 0 1 2 4 0\n", 0, 17, 0},
        {"17 before 22, not above the last", first + "7 -1 0 1 2 4 0\n", 3, 17, 1},
        {"18 before 22", "7 5 0 1 2 4 0\n", 0, 18, 0},
        {"18 before 22, twice", "7 1 1 0 1 2 4 0\n", 1, 18, 0},
        {"22 before 19", "7 -1 0 99 0\n", 0, 22, 0},
        {"22 before 20", "7 -1 0 3 0\n", 1, 22, 0},
        {"22 before 20, two entries", "7 -1 0 3 0\n", 2, 22, 0},
        {"22 before 21", "7 -1 0 0\n", 0, 22, 0},
        {"22 before 19 in a later line", first + "8 -1 0 99 0\n", 3, 22, 1},
        {"22 before 19 in a later line, two entries", first + "8 -1 0 99 0\n", 5, 22, 1},
        {"19 in a later line", first + "8 -1 0 99 0\n", 6, 19, 1},
        {"19 of the empty clause", "7 0 99 0\n", 0, 19, 0},
        {"20 of the empty clause", "7 0 3 0\n", 0, 20, 0},
        {"21 of the empty clause", "7 0 0\n", 1, 21, 0},
        {"23 without a slice", "7 d 1 0\n", 0, 23, 0},
        {"empty text without a slice", "", 0, 23, 0},
    };
    Group group("places for records");
    for (const PlaceRow& row : rows) {
        for (unsigned round = 0; round < 6; round++) {
            Lengths lengths = enough(exact_lengths(p4, 0));
            lengths.added = row.added;
            check_number(group, p4, row.text, lengths, row.number, row.count, row.name);
        }
    }
    group.finish();
}

// ---------------------------------------------------------------------------
// Slices that are written out
// ---------------------------------------------------------------------------

// What a check past 15 leaves in slices of 12, 13, 8 and 6 entries that held
// 77: the store of the request of P4, these records, and V+1 zeros.
Slices filled_p4(const std::vector<std::uint32_t>& added) {
    return {{-2, 3, -1, -2, 3, -1, 2, -3, 4, -4, 1, 77},
            {0, 1, 1, 1, 2, 3, 5, 3, 8, 1, 9, 2, 77},
            added,
            {0, 0, 0, 0, 0, 77}};
}

bool same_slices(const Slices& a, const Slices& b) {
    return a.literals == b.literals && a.pairs == b.pairs && a.added == b.added &&
           a.values == b.values;
}

// What a check of "1 -1 0 1" leaves: V is 2, C 2 and T 3, since the free row has
// no variables and no clauses. Of "1 -- 0 0": V is 1, C and T are 0.
void group_free_rows() {
    Group group("free rows, by hand");
    const Request one = {1, 2, 0, 1, 1}, none = {1, 0, 0, 0, 3};
    const std::vector<std::int32_t> literals(4, 77);
    const std::vector<std::uint32_t> pairs(5, 77), places(4, 77);
    const std::vector<std::uint8_t> values(4, 77);
    struct FreeRow {
        Request q;
        std::string text;
        int number;
        std::uint32_t count;
        std::vector<std::uint32_t> added;
    };
    const FreeRow rows[] = {
        {one, "", 23, 0, {77, 77, 77, 77}},
        // the clauses are 1 (2) and 2 (-2 1), so (1) follows
        {one, "3 1 0 1 2 0\n", 23, 1, {3, 2, 1, 77}},
        {one, "7 1 0 1 2 0\n", 23, 1, {7, 2, 1, 77}},
        {one, "3 1 0 1 0\n", 21, 0, {77, 77, 77, 77}},
        {one, "3 3 0 1 2 0\n", 18, 0, {77, 77, 77, 77}},
        {one, "3 0 1 2 3 0\n", 19, 0, {77, 77, 77, 77}},
        {one, "3 0 1 2 0\n", 21, 0, {77, 77, 77, 77}},
        {one, "2 1 0 1 2 0\n", 17, 0, {77, 77, 77, 77}},
        {none, "", 23, 0, {77, 77, 77, 77}},
        {none, "1 0 0\n", 21, 0, {77, 77, 77, 77}},
        {none, "1 1 0 0\n", 21, 0, {77, 77, 77, 77}},
        {none, "1 1 0 1 0\n", 19, 0, {77, 77, 77, 77}},
        {none, "1 2 0 0\n", 18, 0, {77, 77, 77, 77}},
        {none, "2 0 0\n", 21, 0, {77, 77, 77, 77}},
        {none, "0 0 0\n", 17, 0, {77, 77, 77, 77}},
        {none, "0 1 0 0\n", 17, 0, {77, 77, 77, 77}},
        {none, "1 d 1 0\n", 19, 0, {77, 77, 77, 77}},
        {none, "1 d 0\n", 23, 0, {77, 77, 77, 77}},
    };
    for (const FreeRow& row : rows) {
        const bool is_one = row.q.table != 0;
        const Slices want = {is_one ? std::vector<std::int32_t>{2, -2, 1, 77} : literals,
                             is_one ? std::vector<std::uint32_t>{0, 1, 1, 2, 77} : pairs, row.added,
                             is_one ? std::vector<std::uint8_t>{0, 0, 0, 77}
                                    : std::vector<std::uint8_t>{0, 0, 77, 77}};
        const Outcome outcome =
            check_same(group, row.q, row.text, {literals, pairs, places, values});
        const std::string name = numbers_of(row.q) + " " + shown(row.text);
        group.check(outcome.number == row.number && outcome.count == row.count, name,
                    "second: " + std::to_string(outcome.number));
        group.check(same_slices(outcome.slices, want), name, "second: slices");
    }
    // no clause needs no place
    check_number(group, none, "", {0, 0, 0, 2}, 23, 0, "no place for a clause");
    check_number(group, none, "1 1 0 0\n", {0, 0, 2, 2}, 22, 0, "no place for a record");
    check_number(group, none, "1 1 0 0\n", {0, 0, 3, 2}, 21, 0, "a place for a record");
    check_number(group, none, "", {0, 0, 0, 1}, 14, 0, "one value");
    // the clauses of P4's request, with free rows beside its two
    for (const Request& q :
         {Request{2, 8, 0, 1, 5}, Request{2, 2, 0, 1, 12}, Request{4, 0x8000, 0, 1, 0x7FFE}}) {
        check_number(group, q, good, exact_lengths(q, 0), 0, 0, "P4 with free rows");
        check_number(group, q, first + last, exact_lengths(q, 1), 0, 1, "P4 with free rows");
        check_number(group, q, "7 0 5 6 1 2 0\n", exact_lengths(q, 1), 21, 0, "P5 with free rows");
    }
    group.finish();
}

// Each row has the records that are left. Both must leave them.
void group_slices_at_exit() {
    struct SliceRow {
        std::string name;
        std::string text;
        int number;
        std::uint32_t count;
        std::vector<std::uint32_t> added;
    };
    const std::string two = long_7 + long_8;
    const std::vector<std::uint32_t> none(8, 77);
    const SliceRow rows[] = {
        {"empty text", "", 23, 0, none},
        {"P4", good, 0, 0, none},
        {"P7", "8 0 5 6 1 2 4 0\n", 0, 0, none},
        {"bad form", "x", 16, 0, none},
        {"one clause", first + last, 0, 1, {7, 2, 2, 77, 77, 77, 77, 77}},
        {"two clauses", two, 23, 2, {7, 2, 7, 8, 18, 6, 77, 77}},
        {"a gap in front", first_20 + "30 0 5 6 20 0\n", 0, 1, {20, 3, 2, 77, 77, 77, 77, 77}},
        {"a gap between", first + "90 4 -3 0 5 0\n", 23, 2, {7, 2, 2, 90, 18, 4, 77, 77}},
        {"large ids", "100000000 -1 0 1 2 4 0\n999999999 4 0 5 0\n", 23, 2,
         {100000000, 10, 2, 999999999, 33, 1, 77, 77}},
        {"a longer id of a deletion before", "999999999 d 0\n" + first, 23, 1,
         {7, 16, 2, 77, 77, 77, 77, 77}},
        {"refused hints leave the place, 19", "7 -1 0 99 0\n", 19, 0, none},
        {"refused hints leave the place, 20", "7 -1 0 3 0\n", 20, 0, none},
        {"refused hints leave the place, 21", "7 -1 0 0\n", 21, 0, none},
        {"refused literals leave the place", "7 -1 5 0 1 0\n", 18, 0, none},
        {"refused id leaves the place", "6 -1 0 1 2 4 0\n", 17, 0, none},
        {"refused id leaves the second place", first + "7 -1 0 1 2 4 0\n", 17, 1,
         {7, 2, 2, 77, 77, 77, 77, 77}},
        {"no third place", two + "9 1 0 5 6 0\n", 22, 2, {7, 2, 7, 8, 18, 6, 77, 77}},
        {"deletion", two + "9 d 7 0\n", 23, 2, {7, 2, 0, 8, 18, 6, 77, 77}},
        {"both deleted", two + "9 d 8 7 0\n", 23, 2, {7, 2, 0, 8, 18, 0, 77, 77}},
        {"deletion, ids with gaps", first_20 + second_30 + "9 d 30 0\n", 23, 2,
         {20, 3, 2, 30, 19, 0, 77, 77}},
        {"both deleted, ids with gaps", first_20 + second_30 + "9 d 20 30 0\n", 23, 2,
         {20, 3, 0, 30, 19, 0, 77, 77}},
        {"a number between deletes nothing", first_20 + second_30 + "9 d 20 25 30 0\n", 19, 2,
         {20, 3, 0, 30, 19, 4, 77, 77}},
        {"a deleted id that comes again", first_20 + second_30 + "9 d 30 0\n30 4 0 5 0\n", 17, 2,
         {20, 3, 2, 30, 19, 0, 77, 77}},
        {"deleted twice", two + "9 d 7 7 8 0\n", 19, 2, {7, 2, 0, 8, 18, 6, 77, 77}},
        {"deletions before the 19 are kept", two + "9 d 8 99 7 0\n", 19, 2,
         {7, 2, 7, 8, 18, 0, 77, 77}},
        {"original ones stay", two + "9 d 1 8 2 0\n9 0 1 0\n", 21, 2,
         {7, 2, 7, 8, 18, 0, 77, 77}},
        {"bad form deletes nothing", two + "9 d 7 8 x\n", 16, 2, {7, 2, 7, 8, 18, 6, 77, 77}},
        {"two 0 delete nothing", two + "9 d 7 8 0 0\n", 16, 2, {7, 2, 7, 8, 18, 6, 77, 77}},
        {"an unfinished line deletes nothing", two + "9 d 7 8 0", 16, 2,
         {7, 2, 7, 8, 18, 6, 77, 77}},
        {"a negative id deletes nothing", two + "9 d 7 -8 0\n", 16, 2,
         {7, 2, 7, 8, 18, 6, 77, 77}},
        {"deletions are kept at the end", two + "9 d 7 0\n" + "9 0 5 6 1 2 4 0\n", 0, 2,
         {7, 2, 0, 8, 18, 6, 77, 77}},
        {"unread text deletes nothing", first + last + "9 d 7 0\n", 0, 1,
         {7, 2, 2, 77, 77, 77, 77, 77}},
        {"place not used again", first + "8 d 7 0\n8 1 0 5 6 0\n", 23, 2,
         {7, 2, 0, 8, 25, 1, 77, 77}},
    };
    Group group("slices at exit, by hand");
    for (const SliceRow& row : rows) {
        const Slices lent = {std::vector<std::int32_t>(12, 77), std::vector<std::uint32_t>(13, 77),
                             std::vector<std::uint32_t>(8, 77), std::vector<std::uint8_t>(6, 77)};
        const Outcome outcome = check_same(group, p4, row.text, lent);
        group.check(outcome.number == row.number, row.name, "second: number");
        group.check(outcome.count == row.count, row.name, "second: count");
        group.check(same_slices(outcome.slices, filled_p4(row.added)), row.name, "second: slices");
    }
    group.finish();
}

// Only the records that the check wrote are looked at, whatever the slice held
// before: here records of clauses that the text has, or of parts of it, and ids
// that would keep the text's own from being above the last.
void group_prior_records() {
    Group group("records in the added slice before the check");
    const std::uint32_t high = 0xFFFFFFFF;
    const std::vector<std::uint32_t> priors[] = {
        // 8 2 1 of "7 4 0 5 0" is the literal 4, and of "7 -1 0 1 2 4 0" a minus
        {8, 2, 1, 8, 2, 1, 8, 2, 1},
        {7, 2, 1, 8, 2, 1, 9, 2, 1},
        {7, 2, 2, 8, 2, 2, 9, 2, 2},
        {9, 2, 2, 8, 2, 2, 7, 2, 2},
        {7, 0, 1, 8, 0, 1, 9, 0, 1},
        {7, 2, 0, 8, 17, 1, 9, 19, 1},
        {10, 2, 2, 20, 2, 2, 30, 2, 2},
        {999999999, 2, 2, 999999999, 2, 2, 999999999, 2, 2},
        {0, 0, 0, 0, 0, 0, 0, 0, 0},
        {7, 7, 7, 7, 7, 7, 7, 7, 7},
        {high, high, high, high, high, high, 1, high, high}};
    const Row rows[] = {{"hint", "7 0 7 0\n", 19, 0},
                        {"hint of the first line", "7 4 0 8 0\n", 19, 0},
                        {"hint behind others", "7 -1 0 1 2 7 0\n", 19, 0},
                        {"later hint", "7 0 8 0\n", 19, 0},
                        {"hint of a large id", "7 0 999999999 0\n", 19, 0},
                        {"own id", first + "8 1 0 8 0\n", 19, 1},
                        {"hint in the second line", first + "8 0 5 6 9 0\n", 19, 1},
                        {"hint with a gap", first + "30 0 5 6 20 0\n", 19, 1},
                        {"hint behind two records", three + "50 0 5 6 7 0\n", 19, 3},
                        {"deletion", "7 d 7 0\n", 19, 0},
                        {"deletion of the second", first + "8 d 8 0\n", 19, 1},
                        {"deletion with a gap", first + "8 d 20 0\n", 19, 1},
                        {"all good", first + last, 0, 1},
                        {"all good with gaps", three + last_50, 0, 3}};
    for (const std::vector<std::uint32_t>& prior : priors) {
        for (const Row& row : rows) {
            Slices lent = any_slices(enough(exact_lengths(p4, 3)), row.text.size());
            lent.added = prior;
            const Outcome outcome = check_same(group, p4, row.text, lent);
            group.check(outcome.number == row.number && outcome.count == row.count, row.name,
                        "second: " + std::to_string(outcome.number));
        }
    }
    group.finish();
}

// Every byte that the values can hold before, in all of them.
void group_prior_values() {
    Group group("values before the check");
    for (unsigned byte = 0; byte < 256; byte++) {
        for (const std::string& text : {good, first + last, std::string("7 0 5 6 3 0\n"),
                                        std::string("7 -1 0 6 1 2 4 0\n"), std::string()}) {
            Slices lent = any_slices(enough(exact_lengths(p4, 2)), text.size());
            std::fill(lent.values.begin(), lent.values.end(), std::uint8_t(byte));
            check_same(group, p4, text, lent);
        }
    }
    group.finish();
}

// ---------------------------------------------------------------------------
// Short slices and long texts
// ---------------------------------------------------------------------------

// Any request, with free rows in most cases.
Request any_request(unsigned n, unsigned r, unsigned m) {
    return any_request(random_numbers, n, r, m);
}

// 7, 8 and 14 at their bounds, and the lowest of them that applies.
void check_short_slices(Group& group, const Request& q, const std::string& text) {
    const Lengths exact = exact_lengths(q, 2);
    const std::string name = numbers_of(q);
    const int number = second::check_refutation(q, text, any_slices(exact, 2)).number;
    group.check(number == 0 || number > 15, name, "second: refused with enough entries");
    const auto less = [](std::size_t length) { return length == 0 ? 0 : length - 1; };
    for (std::size_t literals : {exact.literals, less(exact.literals), std::size_t(0)}) {
        for (std::size_t pairs :
             {exact.pairs, less(exact.pairs), exact.pairs / 2, std::size_t(0)}) {
            for (std::size_t values : {exact.values, exact.values - 1, std::size_t(0)}) {
                const Lengths lengths = {literals, pairs, random_numbers.below(8), values};
                if (literals < exact.literals) {
                    check_number(group, q, text, lengths, 7, 0, name);
                } else if (pairs < exact.pairs) {
                    check_number(group, q, text, lengths, 8, 0, name);
                } else if (values < exact.values) {
                    check_number(group, q, text, lengths, 14, 0, name);
                } else {
                    check_same(group, q, text, lengths);
                }
            }
        }
    }
}

void group_short_slices() {
    Group group("short slices");
    for (const std::string& text : {good, first + last, std::string(), std::string("x")}) {
        check_short_slices(group, p4, text);
    }
    for (unsigned r = 0; r <= 7; r++) {
        for (unsigned m : {0u, 1u, 7u}) {
            for (unsigned n = 1; n <= 4; n++) {
                check_short_slices(group, any_request(n, r, m), good);
            }
        }
    }
    check_short_slices(group, {4, 0xFFFF, 7, 7}, good);
    group.finish();
}

// "15 for text above 16,777,215 bytes": all of the text counts, also what
// would be unread.
void group_long_texts() {
    Group group("long texts");
    const std::size_t most = 16777215;
    const Lengths exact = exact_lengths(p4, 0);
    Lengths no_literals = exact, no_pairs = exact, no_values = exact;
    no_literals.literals--;
    no_pairs.pairs--;
    no_values.values--;
    std::string text(most + 1, '\0');
    check_number(group, p4, text, exact, 15, 0, "zero bytes");
    check_number(group, p4, text, no_literals, 7, 0, "7 before 15");
    check_number(group, p4, text, no_pairs, 8, 0, "8 before 15");
    check_number(group, p4, text, no_values, 14, 0, "14 before 15");
    check_number(group, {1, 4, 0, 1}, text, exact, 3, 0, "3 before 15");
    const Request p2 = {1, 2, 1, 1};
    check_number(group, p2, text + "\n", exact_lengths(p2, 3), 15, 0, "two bytes above");
    text = good + std::string(most + 1 - good.size(), '\n');
    check_number(group, p4, text, exact, 15, 0, "one byte above, a refutation");
    text.pop_back();
    check_number(group, p4, text, exact, 0, 0, "no byte above, a refutation");
    text = std::string(most, '\0');
    check_number(group, p4, text, exact, 16, 0, "no byte above, zero bytes");
    // The addition stands at the far end of the text.
    text = "7 d";
    while (text.size() + 2 + 2 + first.size() + 2 <= most) text += " 1";
    text += " 0\n" + first;
    check_number(group, p4, text, exact_lengths(p4, 1), 23, 1, "a clause at the far end");
    group.finish();
}

// ---------------------------------------------------------------------------
// Requests
// ---------------------------------------------------------------------------

void group_refused_requests() {
    Group group("refused requests, by hand");
    for (const std::string& text : {good, std::string(), std::string("x")}) {
        for (const Lengths& lengths : {exact_lengths(p4, 1), Lengths{0, 0, 0, 0}}) {
            check_number(group, {0, 2, 0, 1}, text, lengths, 2, 0, "n = 0");
            check_number(group, {5, 2, 0, 1}, text, lengths, 2, 0, "n = 5");
            check_number(group, {255, 0xFFFF, 255, 255}, text, lengths, 2, 0, "all bad");
            check_number(group, {1, 4, 0, 1}, text, lengths, 3, 0, "bit 2 for n = 1");
            check_number(group, {2, 16, 8, 8}, text, lengths, 3, 0, "bit 4 for n = 2");
            check_number(group, {3, 256, 0, 1}, text, lengths, 3, 0, "bit 8 for n = 3");
            check_number(group, {1, 5, 0, 1, 1}, text, lengths, 3, 0, "3 before 24");
            check_number(group, {1, 2, 9, 9, 4}, text, lengths, 3, 0, "free bit 2 for n = 1");
            check_number(group, {1, 2, 0, 1, 2}, text, lengths, 24, 0, "both bits of row 1");
            check_number(group, {1, 1, 9, 9, 1}, text, lengths, 24, 0, "24 before 4");
            check_number(group, {4, 0xFFFF, 7, 255, 0x8000}, text, lengths, 24, 0, "24 before 5");
            check_number(group, {1, 2, 8, 1}, text, lengths, 4, 0, "r = 8");
            check_number(group, {4, 0xFFFF, 255, 255}, text, lengths, 4, 0, "r = 255");
            check_number(group, {1, 2, 0, 8}, text, lengths, 5, 0, "M = 8");
            check_number(group, {4, 0xFFFF, 7, 255}, text, lengths, 5, 0, "M = 255");
        }
    }
    group.finish();
}

// ---------------------------------------------------------------------------
// The part of an added clause
// ---------------------------------------------------------------------------

// The lookup has no entry in the library; here the second implementation is
// held against cases that are worked out by hand.
void group_parts_by_hand() {
    struct PartRow {
        std::string name;
        std::vector<std::uint32_t> added;
        std::uint32_t C, a, id;
        std::uint64_t offset, length;
    };
    const std::uint32_t high = 0xFFFFFFFF;
    const PartRow rows[] = {
        {"first", {7, 2, 3, 8, 5, 4}, 6, 2, 7, 2, 3},
        {"second", {7, 2, 3, 8, 5, 4}, 6, 2, 8, 5, 4},
        {"whole text", {7, 0, 10}, 6, 1, 7, 0, 10},
        {"last byte", {7, 9, 1}, 6, 1, 7, 9, 1},
        {"id C", {7, 2, 3, 8, 5, 4}, 6, 2, 6, 0, 0},
        {"id 1", {7, 2, 3, 8, 5, 4}, 6, 2, 1, 0, 0},
        {"id 0", {7, 2, 3, 8, 5, 4}, 6, 2, 0, 0, 0},
        {"record behind the first a", {7, 2, 3, 8, 5, 4}, 6, 1, 8, 0, 0},
        {"id above all", {7, 2, 3, 8, 5, 4}, 6, 2, 9, 0, 0},
        {"a = 0", {7, 2, 3, 8, 5, 4}, 6, 0, 7, 0, 0},
        {"C = 0", {1, 2, 3, 2, 5, 4}, 0, 2, 1, 2, 3},
        {"C = 0, id 0", {1, 2, 3, 2, 5, 4}, 0, 2, 0, 0, 0},
        {"C = 0, id 0 that a record has", {0, 2, 3, 2, 5, 4}, 0, 2, 0, 0, 0},
        {"gap in front", {20, 2, 3, 30, 5, 4}, 6, 2, 20, 2, 3},
        {"gap between", {20, 2, 3, 30, 5, 4}, 6, 2, 30, 5, 4},
        {"a number in the gap in front", {20, 2, 3, 30, 5, 4}, 6, 2, 7, 0, 0},
        {"a number in the gap between", {20, 2, 3, 30, 5, 4}, 6, 2, 25, 0, 0},
        {"just below", {20, 2, 3, 30, 5, 4}, 6, 2, 29, 0, 0},
        {"just above", {20, 2, 3, 30, 5, 4}, 6, 2, 31, 0, 0},
        {"place in a dense count", {20, 2, 3, 30, 5, 4}, 6, 2, 8, 0, 0},
        {"largest id", {high, 2, 3}, 6, 1, high, 2, 3},
        {"ids that fall", {30, 2, 3, 20, 5, 4}, 6, 2, 20, 5, 4},
        {"ids that fall, the larger", {30, 2, 3, 20, 5, 4}, 6, 2, 30, 2, 3},
        {"ids in no order, the first", {30, 1, 1, 10, 2, 1, 40, 3, 1, 20, 4, 1}, 6, 4, 30, 1, 1},
        {"ids in no order, the second", {30, 1, 1, 10, 2, 1, 40, 3, 1, 20, 4, 1}, 6, 4, 10, 2, 1},
        {"ids in no order, the third", {30, 1, 1, 10, 2, 1, 40, 3, 1, 20, 4, 1}, 6, 4, 40, 3, 1},
        {"ids in no order, the fourth", {30, 1, 1, 10, 2, 1, 40, 3, 1, 20, 4, 1}, 6, 4, 20, 4, 1},
        {"two records with the id", {9, 2, 3, 9, 5, 4}, 6, 2, 9, 2, 3},
        {"two records with the id, another before", {8, 1, 1, 9, 2, 3, 9, 5, 4}, 6, 3, 9, 2, 3},
        {"three records with the id", {9, 4, 1, 9, 2, 1, 9, 3, 1}, 6, 3, 9, 4, 1},
        {"the first of two is empty", {9, 1, 0, 9, 3, 1}, 6, 2, 9, 0, 0},
        {"the first of two leaves the text", {9, 9, 2, 9, 3, 1}, 6, 2, 9, 0, 0},
        {"the first of two wraps", {9, high, 2, 9, 3, 1}, 6, 2, 9, 0, 0},
        {"the second of two is empty", {9, 3, 1, 9, 1, 0}, 6, 2, 9, 3, 1},
        {"the first of two behind the first a", {8, 1, 1, 9, 3, 1, 9, 4, 1}, 6, 1, 9, 0, 0},
        {"the second of two behind the first a", {9, 3, 1, 9, 4, 1}, 6, 1, 9, 3, 1},
        {"id C that a record has", {6, 0, 1}, 6, 1, 6, 0, 0},
        {"id 1 that a record has", {1, 0, 1}, 6, 1, 1, 0, 0},
        {"id 0 that a record has", {0, 0, 1}, 6, 1, 0, 0, 0},
        {"records below C before", {3, 0, 1, 6, 1, 1, 7, 2, 3}, 6, 3, 7, 2, 3},
        {"all ids the largest", {high, 2, 3, high, 5, 4}, 6, 2, high, 2, 3},
        {"all ids the largest, another sought", {high, 2, 3, high, 5, 4}, 6, 2, high - 1, 0, 0},
        {"all entries the largest", {high, high, high}, 6, 1, high, 0, 0},
        {"all entries 0", {0, 0, 0, 0, 0, 0}, 6, 2, 7, 0, 0},
        {"the id as an offset", {8, 7, 1, 8, 7, 1}, 6, 2, 7, 0, 0},
        {"the id as a length", {8, 1, 7, 8, 1, 7}, 6, 2, 7, 0, 0},
        {"length 0", {7, 2, 0, 8, 5, 4}, 6, 2, 7, 0, 0},
        {"length 0 at the text's end", {7, 10, 0}, 6, 1, 7, 0, 0},
        {"no slice", {}, 6, 1, 7, 0, 0},
        {"no slice, a = 0", {}, 6, 0, 7, 0, 0},
        {"no slice, a large", {}, 6, high, 7, 0, 0},
        {"one entry", {7}, 6, 1, 7, 0, 0},
        {"two entries", {7, 2}, 6, 1, 7, 0, 0},
        {"record without its length", {7, 2, 3, 8, 5}, 6, 2, 8, 0, 0},
        {"record without offset and length", {7, 2, 3, 8}, 6, 2, 8, 0, 0},
        {"record before one spare entry", {7, 2, 3, 8}, 6, 2, 7, 2, 3},
        {"record before two spare entries", {7, 2, 3, 8, 5}, 6, 2, 7, 2, 3},
        {"two records and two spare entries", {7, 2, 3, 8, 5, 4, 9, 1}, 6, 3, 8, 5, 4},
        {"the third of two and two spare entries", {7, 2, 3, 8, 5, 4, 9, 1}, 6, 3, 9, 0, 0},
        {"record outside, a larger than the slice", {7, 2, 3}, 6, 9, 8, 0, 0},
        {"record inside, a larger than the slice", {7, 2, 3}, 6, 9, 7, 2, 3},
        {"record inside, a the largest", {7, 2, 3, 8, 5, 4}, 6, high, 8, 5, 4},
        {"record outside, a the largest", {7, 2, 3, 8, 5, 4}, 6, high, high, 0, 0},
        {"one byte past the text", {7, 8, 3}, 6, 1, 7, 0, 0},
        {"longer than the text", {7, 0, 11}, 6, 1, 7, 0, 0},
        {"offset at the text's end", {7, 10, 1}, 6, 1, 7, 0, 0},
        {"offset past the text", {7, 11, 1}, 6, 1, 7, 0, 0},
        {"offset and length pass 32 bits", {7, high, 3}, 6, 1, 7, 0, 0},
        {"offset and length wrap to 2", {7, high - 1, 4}, 6, 1, 7, 0, 0},
        {"length of 32 bits", {7, 2, high}, 6, 1, 7, 0, 0},
        {"C near 2^32", {high, 2, 3, 8, 5, 4}, high - 1, high, high, 2, 3},
        {"C near 2^32, id C", {high - 1, 2, 3}, high - 1, 1, high - 1, 0, 0},
        {"C = 2^32-1", {high, 2, 3, 8, 5, 4}, high, high, high, 0, 0},
        {"C = 2^32-1, id wrapped", {0, 2, 3, 8, 5, 4}, high, high, 0, 0, 0},
    };
    Group group("second: part of an added clause");
    for (const PartRow& row : rows) {
        for (const std::string& text : {std::string("0123456789"), std::string(10, '\n')}) {
            const second::Part part = second::added_part(text, row.added, row.C, row.a, row.id);
            group.check(part.offset == row.offset && part.length == row.length, row.name,
                        "second: another part");
        }
    }
    group.finish();
}

// The parts that a check leaves are the literals of the lines, in the text's
// words; deleted clauses have none, and neither have the numbers beside the ids.
void check_parts(Group& group, const Request& q, const MadeLines& lines, const std::string& text,
                 const Outcome& outcome) {
    unsigned V = 0, C = 0, T = 0;
    second::counts(q, V, C, T);
    std::map<std::uint32_t, std::string> want;
    std::size_t additions = 0;
    for (const MadeLine& line : lines) {
        std::string words;
        for (std::int64_t literal : line.literals) words += " " + std::to_string(literal);
        if (!words.empty()) {
            additions++;
            for (std::int64_t id : {line.id - 1, line.id, line.id + 1}) {
                want.emplace(std::uint32_t(id), "");
            }
            want[std::uint32_t(line.id)] = words.substr(1);
        }
        for (std::int64_t id : line.ids) {
            if (line.deletes && id > std::int64_t(C)) want[std::uint32_t(id)] = "";
        }
    }
    for (std::uint32_t id = 0; id <= C + additions + 2; id++) want.emplace(id, "");
    bool same = additions == outcome.count;
    for (const auto& [id, words] : want) {
        const second::Part part =
            second::added_part(text, outcome.slices.added, C, outcome.count, id);
        same = same && text.substr(part.offset, part.length) == words;
    }
    group.check(same, same ? "" : numbers_of(q) + " " + shown(text), "second: parts");
}

// ---------------------------------------------------------------------------
// Refutations and damaged copies of them
// ---------------------------------------------------------------------------

// A refutation, or the first lines of one.
struct Source {
    Request q;
    MadeLines lines;
    bool ended;
};

// Refutations by solvers, as they stand in real cells; their ids follow one
// another.
std::vector<Source> real_sources() {
    struct Real {
        Request q;
        std::string text;
    };
    const Real all[] = {
        {p4, "7 0 1 2 4 5 6 0\n"},
        {{2, 0xC, 0, 3}, "16 d 3 5 6 7 8 10 11 13 14 15 16 0\n17 0 1 2 4 9 12 0\n"},
        {{2, 0x8, 1, 3},
         "102 -1 -16 0 38 41 0\n103 -2 -17 0 38 43 0\n104 -5 16 0 39 49 0\n"
         "105 -6 17 0 39 51 0\n106 -1 -20 0 56 59 0\n107 -2 -21 0 56 61 0\n"
         "108 -5 20 0 57 67 0\n109 -6 21 0 57 69 0\n"
         "110 -30 0 20 21 27 91 87 88 101 4 104 108 89 74 90 103 107 52 70 13 0\n"
         "111 -24 -28 0 79 80 90 95 103 107 104 108 52 70 13 0\n"
         "111 d 103 104 107 108 0\n"
         "112 -28 0 20 21 27 91 111 74 77 78 89 93 102 106 105 109 53 71 13 0\n"
         "112 d 111 0\n"
         "113 -23 -31 0 20 21 27 112 89 4 99 75 92 97 10 0\n"
         "114 -31 0 20 21 27 91 112 113 74 90 7 97 75 94 99 11 0\n"
         "114 d 112 113 0\n"
         "115 0 20 21 27 91 110 114 76 85 86 100 7 105 109 90 74 89 102 106 53 71 13 0\n"},
        {{2, 0xD, 1, 1},
         "68 -1 -15 0 30 33 0\n69 -2 -16 0 30 35 0\n70 -13 0 30 31 37 27 0\n70 d 70 0\n"
         "71 -3 0 30 31 37 0\n71 d 71 0\n72 -5 15 0 31 41 0\n73 -6 16 0 31 43 0\n"
         "74 -20 0 30 31 37 55 0\n74 d 74 0\n75 -23 0 30 31 37 65 0\n75 d 75 0\n"
         "76 -22 0 30 31 37 27 61 62 64 67 7 69 72 28 44 20 13 23 0\n76 d 69 72 0\n"
         "77 0 30 31 37 27 65 76 58 59 60 63 66 4 68 73 29 45 20 13 21 0\n"},
    };
    std::vector<Source> sources;
    for (const Real& real : all) sources.push_back({real.q, made_lines_of(real.text), true});
    return sources;
}

// Small requests: all tables without free rows for n up to 2 and r up to 1, all
// tables with free rows for n = 1, some others.
std::vector<Request> small_requests() {
    std::vector<Request> all;
    for (unsigned n = 1; n <= 2; n++) {
        for (unsigned table = 0; table < (1u << (1u << n)); table++) {
            for (unsigned r = 0; r <= 1; r++) {
                for (unsigned m : {0u, 1u, 3u}) all.push_back({n, table, r, m});
            }
        }
    }
    for (unsigned number = 0; number < tables_with_free(1); number++) {
        Request q = {1, 0, number % 2, 1 + number % 3};
        set_table(q, number);
        if (q.free != 0) all.push_back(q);
    }
    for (unsigned round = 0; round < 20; round++) {
        all.push_back(any_request(3, unsigned(random_numbers.below(2)), round % 4));
        all.push_back(any_request(4, 0, round % 3));
        all.push_back(any_request(1 + round % 2, 2, round % 3));
        all.push_back(any_request(2, round % 2, round % 4));
    }
    // without a clause there is nothing to learn from
    const auto empty = [](const Request& q) { return second::clauses(q).empty(); };
    all.erase(std::remove_if(all.begin(), all.end(), empty), all.end());
    return all;
}

// The source with gaps between its ids.
Source with_gaps(const Source& source, Gaps gaps) {
    unsigned V = 0, C = 0, T = 0;
    second::counts(source.q, V, C, T);
    return {source.q, with_gaps(source.lines, C, gaps, random_numbers.next()), source.ended};
}

// Each source with gaps of every kind.
std::vector<Source> with_all_gaps(const std::vector<Source>& sources) {
    std::vector<Source> all;
    for (const Source& source : sources) {
        for (const Gaps gaps : all_gaps) all.push_back(with_gaps(source, gaps));
    }
    return all;
}

std::vector<Source> made_sources() {
    std::vector<Source> sources;
    for (const Request& q : small_requests()) {
        Solver solver(q, random_numbers, 80);
        solver.wander(random_numbers.below(3) * random_numbers.below(8));
        const bool ended = solver.run();
        sources.push_back({q, solver.lines, ended});
    }
    return sources;
}

// The sources as they are: "none" at the end, 23 without one.
void group_undamaged(const std::string& name, const std::vector<Source>& sources,
                     std::size_t least_ended) {
    Group group(name);
    std::size_t ended = 0, clauses = 0;
    for (const Source& source : sources) {
        const std::string text = text_of(source.lines);
        const std::size_t additions = additions_in(source.lines);
        const Lengths exact = exact_lengths(source.q, additions);
        const int number = source.ended ? 0 : 23;
        for (unsigned round = 0; round < 3; round++) {
            const Outcome outcome =
                check_number(group, source.q, text, round == 0 ? exact : enough(exact), number,
                             std::uint32_t(additions), numbers_of(source.q));
            check_parts(group, source.q, source.lines, text, outcome);
        }
        if (source.ended) ended++;
        clauses += additions;
    }
    group.check(ended >= least_ended, name, "only " + std::to_string(ended) + " have an end");
    group.finish();
    std::printf("%s: %zu, %zu with an end, %zu added clauses\n", name.c_str(), sources.size(),
                ended, clauses);
}

// A damaged copy of a source: up to three damages to its numbers, to its text,
// or to both.
std::string damaged(const Source& source) {
    MadeLines lines = source.lines;
    const std::size_t kind = random_numbers.below(8);
    if (kind < 6) {
        LineDamage damage(source.q, random_numbers, lines);
        for (std::size_t k = random_numbers.below(3) + 1; k > 0; k--) damage.damage();
    }
    std::string text = text_of(lines);
    if (kind >= 5) {
        for (std::size_t k = random_numbers.below(2) + 1; k > 0; k--) {
            damage_text(text, random_numbers);
        }
    }
    return text;
}

// Damaged copies, with slices of all lengths. In some the added slice holds
// the records of the source before the check. In a few the request is another.
void check_damaged(Group& group, const Source& source, unsigned long copies) {
    const Lengths exact = exact_lengths(source.q, additions_in(source.lines));
    const std::string whole = text_of(source.lines);
    const Outcome undamaged =
        second::check_refutation(source.q, whole, any_slices(exact, whole.size()));
    for (unsigned long copy = 0; copy < copies; copy++) {
        const std::string text = damaged(source);
        Request q = source.q;
        if (random_numbers.below(50) == 0) q.table ^= 1u << random_numbers.below(1u << q.n);
        if (random_numbers.below(50) == 0) q.free ^= 1u << random_numbers.below(1u << q.n);
        const Lengths lengths = any_lengths(exact_lengths(q, exact.added / 3));
        Slices slices = any_slices(lengths, text.size());
        if (random_numbers.below(4) == 0) {
            const std::vector<std::uint32_t>& records = undamaged.slices.added;
            const std::size_t length = std::min(records.size(), slices.added.size());
            std::copy(records.begin(), records.begin() + std::ptrdiff_t(length),
                      slices.added.begin());
        }
        check_same(group, q, text, slices);
    }
}

// The sources of requests with r switches that have a line.
std::vector<Source> of_switches(const std::vector<Source>& sources, unsigned r) {
    std::vector<Source> all;
    for (const Source& source : sources) {
        if (source.q.r == r && !source.lines.empty()) all.push_back(source);
    }
    return all;
}

// A group of so many damaged copies of each source. The answer is their number.
unsigned long group_of_damaged(const std::string& name, const std::vector<Source>& sources,
                               unsigned long copies) {
    Group group(name);
    for (const Source& source : sources) check_damaged(group, source, copies);
    group.finish();
    return copies * sources.size();
}

void groups_of_damaged() {
    const std::vector<Source> real = real_sources(), made = made_sources();
    const std::vector<Source> real_gaps = with_all_gaps(real), made_gaps = with_all_gaps(made);
    group_undamaged("refutations by solvers", real, real.size());
    group_undamaged("the same with gaps", real_gaps, real_gaps.size());
    group_undamaged("made refutations", made, 60);
    group_undamaged("the made ones with gaps", made_gaps, 180);
    unsigned long damaged_in_all = group_of_damaged("damaged refutations by solvers", real, 5000);
    unsigned long with_gaps = group_of_damaged("the same with gaps, damaged", real_gaps, 2000);
    for (unsigned r = 0; r <= 2; r++) {
        const std::string name = "damaged refutations, r=" + std::to_string(r);
        damaged_in_all += group_of_damaged(name, of_switches(made, r), 800);
        with_gaps += group_of_damaged(name + ", with gaps", of_switches(made_gaps, r), 300);
    }
    Group group("number of damaged refutations");
    group.check(damaged_in_all >= 120000, "damaged refutations", "fewer than 120000");
    group.check(with_gaps >= 120000, "damaged refutations with gaps", "fewer than 120000");
    group.finish();
    std::printf("%lu damaged refutations, and %lu with gaps between their ids\n", damaged_in_all,
                with_gaps);
}

// Each number must come up often enough; 2 to 5 and 24 come by the thousand in
// request_test.
void group_numbers_seen() {
    Group group("numbers seen");
    std::printf("numbers seen:");
    for (int number : {0, 2, 3, 24, 4, 5, 7, 8, 14, 15, 16, 17, 18, 19, 20, 21, 22, 23}) {
        const bool request = (number >= 2 && number <= 5) || number == 24;
        const unsigned long least = number == 15 ? 2 : request ? 10 : 50;
        group.check(seen[number] >= least, "number " + std::to_string(number),
                    "fewer than " + std::to_string(least));
        std::printf(" %d: %lu%s", number, seen[number], number == 23 ? "\n" : ",");
    }
    group.finish();
}

// ---------------------------------------------------------------------------
// Files
// ---------------------------------------------------------------------------

// Slices for a text with as many entries as the second implementation needs.
Slices just_enough(const Request& q, const std::string& text) {
    const Slices many = any_slices(exact_lengths(q, lines_in(text)), text.size());
    const Outcome outcome = second::check_refutation(q, text, many);
    return any_slices(exact_lengths(q, outcome.count), text.size());
}

// Prints the library's number and count for the text of a file. The exit
// status is 1 if the second implementation has others.
int check_file(char** words) {
    std::string text;
    if (!read_text(words[2], text)) {
        std::fprintf(stderr, "refutation_test: %s cannot be read\n", words[2]);
        return 2;
    }
    const Request q = request_of(words + 3);
    const Slices slices = just_enough(q, text);
    const Call call = call_check(q, text, slices);
    std::printf("%lu %lu\n", static_cast<unsigned long>(call.number),
                static_cast<unsigned long>(call.count));
    const std::string different = differences(call, second::check_refutation(q, text, slices));
    if (different.empty()) return 0;
    std::fprintf(stderr, "refutation_test: %s: %s\n", words[2], different.substr(2).c_str());
    return 1;
}

// How many numbers are left out between C and the last id of an outcome.
std::uint32_t left_out(std::uint32_t C, const Outcome& outcome) {
    if (outcome.count == 0) return 0;
    return outcome.slices.added[3 * std::size_t(outcome.count) - 3] - C - outcome.count;
}

// A group for each file: it is a refutation, and damaged copies of it. The
// copies of a file have about 20,000,000 bytes together. Then a group with gaps of
// each kind between its ids: it ends as before, with as many records, and its parts
// are those of its lines; and damaged copies, half as many.
int compare_files(int count, char** words) {
    unsigned long damaged_in_all = 0, numbers_left_out = 0;
    for (int k = 2; k + 5 <= count; k += 5) {
        Group group(words[k]);
        std::string text;
        const bool read = read_text(words[k], text);
        const Request q = request_of(words + k + 1);
        group.check(read, words[k], "cannot be read");
        if (read) {
            unsigned V = 0, C = 0, T = 0;
            second::counts(q, V, C, T);
            const Outcome outcome = check_same(group, q, text, just_enough(q, text));
            group.check(outcome.number == 0, words[k],
                        "second: refused " + std::to_string(outcome.number));
            group.check(left_out(C, outcome) == 0, words[k], "its ids have gaps");
            check_parts(group, q, made_lines_of(text), text, outcome);
            const unsigned long copies = std::clamp(20000000ul / (text.size() + 1), 6ul, 3000ul);
            check_damaged(group, {q, made_lines_of(text), true}, copies);
            damaged_in_all += copies;
            for (const Gaps gaps : all_gaps) {
                const std::string name = words[k] + std::string(" with gaps, ") + gaps_name(gaps);
                Group gaps_group(name);
                const std::string other = gapped(text, C, gaps);
                const Outcome again = check_same(gaps_group, q, other, just_enough(q, other));
                gaps_group.check(again.number == outcome.number && again.count == outcome.count,
                                 name, "second: another number or count");
                const bool has_gaps = gaps == Gaps::rare ? again.count > 0 : again.count > 1000;
                gaps_group.check(!has_gaps || left_out(C, again) > 0, name, "no number left out");
                check_parts(gaps_group, q, made_lines_of(other), other, again);
                check_damaged(gaps_group, {q, made_lines_of(other), true}, copies / 6);
                numbers_left_out += left_out(C, again);
                damaged_in_all += copies / 6;
                gaps_group.finish();
            }
        }
        group.finish();
    }
    std::printf("%d stored refutations, each also with gaps of three kinds, which leave out %lu "
                "numbers; %lu damaged copies of them\n",
                (count - 2) / 5, numbers_left_out, damaged_in_all);
    return counts();
}

// Texts of megabytes, as they are and with one byte damaged: clauses far apart,
// ids of many digits, deletions. Damage near the end is found after all lines
// before it were followed.
int compare_long(char** words) {
    struct LongRow {
        std::size_t bytes;
        LongRefutation::Hints hints;
        Gaps gaps;
        unsigned damaged;
    };
    using Hints = LongRefutation::Hints;
    const LongRow rows[] = {
        {1500000, Hints::near, Gaps::none, 14},    {3000000, Hints::far, Gaps::none, 10},
        {6000000, Hints::near, Gaps::none, 3},     {16777215, Hints::far, Gaps::none, 1},
        {1500000, Hints::far, Gaps::rare, 8},      {3000000, Hints::near, Gaps::third, 4},
        {6000000, Hints::far, Gaps::hundredth, 2}, {16777215, Hints::near, Gaps::third, 1}};
    const Request q = request_of(words + 3);
    const LongRefutation source(q, text_of_file(words[2]));
    Group group("long refutations");
    std::size_t texts = 0, bytes = 0;
    for (const LongRow& row : rows) {
        const std::string text = source.text(row.bytes, row.hints, row.gaps);
        const Lengths exact = exact_lengths(q, lines_in(text));
        const Outcome outcome = check_same(group, q, text, enough(exact));
        group.check(outcome.number == 0 && text.size() + 2000 > row.bytes, words[2],
                    "second: " + std::to_string(outcome.number));
        for (unsigned copy = 0; copy < row.damaged; copy++) {
            std::string other = text;
            // Half of them in the last tenth.
            const std::size_t part = copy % 2 == 0 ? text.size() / 10 : text.size();
            const std::size_t place = text.size() - 1 - random_numbers.below(part);
            other[place] = any_byte_of_refutation(random_numbers);
            check_same(group, q, other, enough(exact));
        }
        texts += 1 + row.damaged;
        bytes += (1 + row.damaged) * text.size();
    }
    group.finish();
    std::printf("%zu long refutations with %zu bytes together\n", texts, bytes);
    return counts();
}

void run_all() {
    group_p4_to_p7();
    group_whole_line();
    group_ends_of_lines();
    group_forms();
    group_numbers();
    group_ids();
    group_gaps();
    group_hints_with_gaps();
    group_deletions_with_gaps();
    group_literals();
    group_hints();
    group_deletions();
    group_places();
    group_slices_at_exit();
    group_free_rows();
    group_prior_records();
    group_prior_values();
    group_short_slices();
    group_long_texts();
    group_refused_requests();
    group_parts_by_hand();
    groups_of_damaged();
    group_numbers_seen();
}

}  // namespace

int main(int count, char** words) {
    const std::string mode = count > 1 ? words[1] : "";
    if (count == 7 && mode == "--check") return check_file(words);
    if (count == 7 && mode == "--long") return compare_long(words);
    if (count > 2 && (count - 2) % 5 == 0 && mode == "--files") return compare_files(count, words);
    if (count != 1) {
        std::fprintf(stderr,
                     "usage: refutation_test [--check FILE n table r m]\n"
                     "       refutation_test [--files FILE n table r m ...]\n"
                     "       refutation_test [--long FILE n table r m]\n");
        return 2;
    }
    run_all();
    return counts();
}
