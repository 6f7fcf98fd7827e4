// Requests, good and damaged: as numbers through every entry of the library that
// takes them, as lines through nk_read_request, and as texts through the
// programs; compared with the second implementation.
//
//   request_test                        runs all groups of checks on numbers and
//                                       on lines
//   request_test --programs FILE REPORT FOLDER ANSWER REFUTATION n table k m ...
//                                       the programs `file` and `report` on
//                                       damaged texts, with files in FOLDER;
//                                       six words for each cell to report on
//
// One line is printed for each group that fails. The last line is
// "N passed, M failed", in groups. The exit status is 0 only if M is 0.

#include <fcntl.h>
#include <sys/wait.h>
#include <unistd.h>

#include <cstdint>
#include <cstdio>
#include <filesystem>
#include <fstream>
#include <iterator>
#include <string>
#include <vector>

#include "../second/programs.hpp"
#include "checks.hpp"
#include "entries.hpp"
#include "files.hpp"
#include "gapped.hpp"
#include "guarded.hpp"
#include "lent.hpp"
#include "nordkelch.h"

namespace {

Random random_numbers(20240611);

// How often each number came up, and in how many requests.
unsigned long seen[25] = {0};
unsigned long damaged_requests = 0;

// ---------------------------------------------------------------------------
// Requests as numbers
// ---------------------------------------------------------------------------

// An answer to "1 01 1 1" and a refutation of "1 01 0 1".
const std::string good_answer = "s SATISFIABLE\nv 1 -2 -3 -4 -5 6 7 -8 0\n";
const std::string good_refutation = "7 0 5 6 1 2 4 0\n";

// A text that is good for some request, one that is not, or none.
std::string any_text(const std::string& good) {
    const std::string texts[] = {good, "x\n", "", good + "0"};
    return texts[random_numbers.below(4)];
}

// Long enough for a small request in some cases, too short in others.
Slices slices_for_any() {
    const std::size_t most = random_numbers.below(4) == 0 ? 200 : 12;
    const auto length = [&] { return random_numbers.below(most); };
    const Lengths lengths = {length(), length(), length(), length()};
    return any_slices(random_numbers, lengths, 20);
}

std::string number_fault(const char* entry, std::uint32_t have, std::uint32_t want) {
    if (have == want) return "";
    return std::string(", ") + entry + " answers " + std::to_string(have) + ", not " +
           std::to_string(want);
}

std::string sizes_fault(const Request& q, std::uint32_t want) {
    const std::vector<std::uint32_t> before = {1, 2, 3};
    Lent<std::uint32_t> sizes(random_numbers, before);
    const std::uint32_t have = ask(nk_sizes, q, sizes.data(), sizes.data() + 1, sizes.data() + 2);
    const bool stand = sizes.slice() == before && sizes.edges_stand();
    return number_fault("sizes", have, want) + (stand ? "" : ", the sizes are written");
}

std::string size_fault(const Request& q, std::uint32_t want) {
    const std::uint64_t before = random_numbers.next();
    std::uint64_t size = before;
    const std::uint32_t have = ask(nk_file_size, q, &size);
    return number_fault("size", have, want) + (size == before ? "" : ", the size is written");
}

std::string write_fault(const Request& q, std::uint32_t want) {
    const std::uint64_t before = random_numbers.next();
    std::uint64_t length = before;
    const std::vector<std::uint8_t> room =
        any_content<std::uint8_t>(random_numbers, random_numbers.below(120), 10);
    Lent<std::uint8_t> buffer(random_numbers, room);
    const std::uint32_t have = ask(nk_write_file, q, buffer.data(), buffer.length(), &length);
    std::string fault = number_fault("write", have, want);
    if (length != before) fault += ", the length is written";
    if (buffer.slice() != room || !buffer.edges_stand()) fault += ", the buffer is written";
    return fault;
}

std::string answer_fault(const Request& q, std::uint32_t want) {
    const std::string text = any_text(good_answer);
    const std::uint32_t have = ask(nk_test_answer, q, bytes_of(text), text.size());
    return number_fault("answer", have, want);
}

// P8's network, one of any bytes, or zeros.
std::string network_fault(const Request& q, std::uint32_t want) {
    std::vector<std::uint8_t> bytes = {1, 0, 0, 0, 0, 0, 0, 0, 0, 0, 2, 2};
    bytes.resize(24);
    if (random_numbers.below(2) == 0) bytes = any_content<std::uint8_t>(random_numbers, 24, 16);
    Lent<std::uint8_t> network(random_numbers, bytes);
    Lent<std::uint32_t> number(random_numbers, {std::uint32_t(random_numbers.next() >> 32)});
    const std::uint32_t answer = ask(nk_check_network, q, network.data(), number.data());
    const bool stand =
        network.slice() == bytes && network.edges_stand() && number.edges_stand();
    return number_fault("network", answer, NK_NETWORK_REFUSED) +
           number_fault("network", *number.data(), want) +
           (stand ? "" : ", more than the number is written");
}

std::string check_fault(const Request& q, std::uint32_t want) {
    const std::string text = any_text(good_refutation);
    const Slices before = slices_for_any();
    LentSlices lent(random_numbers, before);
    std::uint32_t count = std::uint32_t(random_numbers.next() >> 32);
    const std::uint32_t have =
        ask(nk_check_refutation, q, bytes_of(text), text.size(), lent.literals.data(),
            lent.literals.length(), lent.pairs.data(), lent.pairs.length(), lent.added.data(),
            lent.added.length(), lent.values.data(), lent.values.length(), &count);
    return number_fault("check", have, want) + (count == 0 ? "" : ", the count is not 0") +
           differences(lent, before);
}

std::string settle_fault(const Request& q, std::uint32_t want) {
    const std::string answer = any_text(good_answer), refutation = any_text(good_refutation);
    const Slices before = slices_for_any();
    LentSlices lent(random_numbers, before);
    Lent<std::uint8_t> network(random_numbers, any_content<std::uint8_t>(random_numbers, 24, 16));
    std::uint32_t number = std::uint32_t(random_numbers.next() >> 32);
    const std::uint32_t verdict =
        ask(nk_settle, q, bytes_of(answer), answer.size(), bytes_of(refutation), refutation.size(),
            lent.literals.data(), lent.literals.length(), lent.pairs.data(), lent.pairs.length(),
            lent.added.data(), lent.added.length(), lent.values.data(), lent.values.length(),
            network.data(), &number);
    std::string fault = number_fault("settle", verdict, 3) + number_fault("settle", number, want);
    if (network.slice() != std::vector<std::uint8_t>(24, 0)) fault += ", the network is not 0";
    if (!network.edges_stand()) fault += ", a byte outside the network is written";
    return fault + differences(lent, before);
}

// All seven entries refuse the request with the same number, the first of 2, 3,
// 24, 4, 5 that applies, and leave what they are lent. A good request is passed
// over.
void check_refused(Group& group, const Request& q) {
    const int number = second::refusal(q);
    if (number == 0) return;
    const std::uint32_t want = std::uint32_t(number);
    const std::string fault = sizes_fault(q, want) + size_fault(q, want) + write_fault(q, want) +
                              answer_fault(q, want) + network_fault(q, want) +
                              check_fault(q, want) + settle_fault(q, want);
    group.check(fault.empty(), fault.empty() ? "" : numbers_of(q),
                fault.empty() ? "" : fault.substr(2));
    seen[number]++;
    damaged_requests++;
}

// Requests whose number is written out: several faults at once, and 24 at its
// ends.
void group_order() {
    struct Row {
        Request q;
        int number;
    };
    const Row rows[] = {
        // n, table, r, M, free rows
        {{1, 5, 1, 1, 1}, 3},
        {{1, 1, 9, 1, 1}, 24},
        {{0, 1, 9, 9, 1}, 2},
        {{5, 0xFFFF, 9, 9, 0xFFFF}, 2},
        {{0, 0, 0, 0, 0xFFFF}, 2},
        {{1, 1, 9, 9, 5}, 3},
        {{1, 0, 1, 1, 4}, 3},
        {{1, 4, 1, 1, 4}, 3},
        {{1, 0, 0, 0, 0x8000}, 3},
        {{1, 0x8000, 0, 0, 0x8000}, 3},
        {{2, 1, 8, 8, 0x11}, 3},
        {{2, 0x10, 8, 8, 0}, 3},
        {{3, 0xFF, 0, 0, 0x100}, 3},
        {{3, 0x100, 0, 0, 0xFF}, 3},
        {{1, 1, 0, 0, 1}, 24},
        {{1, 2, 0, 0, 2}, 24},
        {{1, 3, 8, 8, 3}, 24},
        {{1, 3, 1, 9, 1}, 24},
        {{2, 0xF, 255, 255, 0x8}, 24},
        {{3, 0x80, 7, 7, 0x80}, 24},
        {{3, 0x0F, 1, 1, 0xF8}, 24},
        {{4, 0x8000, 7, 7, 0x8000}, 24},
        {{4, 0xFFFF, 8, 0, 0x0001}, 24},
        {{4, 0x0001, 0, 8, 0xFFFF}, 24},
        {{4, 0xFFFF, 0, 0, 0xFFFF}, 24},
        {{1, 1, 8, 8, 2}, 4},
        {{1, 0, 9, 1, 3}, 4},
        {{4, 0x5555, 255, 0, 0xAAAA}, 4},
        {{1, 1, 7, 8, 2}, 5},
        {{4, 0, 0, 255, 0xFFFF}, 5},
    };
    Group group("damaged requests, by hand");
    for (const Row& row : rows) {
        check_refused(group, row.q);
        const int number = second::refusal(row.q);
        group.check(number == row.number, numbers_of(row.q), "second: " + std::to_string(number));
    }
    group.finish();
}

// Every mixture of fields inside their ranges, at their ends and outside; the
// free rows are none, those of the table, and others in turn.
void group_mixtures() {
    Group group("damaged requests, mixtures");
    const unsigned bounds[] = {0, 1, 6, 7, 8, 9, 16, 127, 128, 254, 255};
    const unsigned tables[] = {0,      1,      3,      4,      8,      15,     16,     17,    255,
                               256,    0x0101, 0x7FFF, 0x8000, 0x8001, 0xFF00, 0xFFF0, 0xFFFF};
    for (unsigned n : {0u, 1u, 2u, 3u, 4u, 5u, 6u, 8u, 16u, 127u, 128u, 129u, 255u}) {
        for (unsigned table : tables) {
            for (unsigned r : bounds) {
                for (unsigned m : bounds) {
                    const unsigned other = tables[(n + table + r + m) % std::size(tables)];
                    check_refused(group, {n, table, r, m});
                    check_refused(group, {n, table, r, m, (r + m) % 2 == 0 ? table : other});
                }
            }
        }
    }
    group.finish();
}

// Each number with a bit at or above 2^n, as the table or as the free rows; the
// other one is 0 or any.
void group_tables() {
    Group group("damaged requests, tables");
    for (unsigned n = 1; n <= 3; n++) {
        for (unsigned rows = 1u << (1u << n); rows <= 0xFFFF; rows += n == 1 ? 3 : 2) {
            const unsigned r = unsigned(random_numbers.below(10));
            const unsigned m = unsigned(random_numbers.below(10));
            const unsigned other = random_numbers.below(2) == 0 ? 0 : any_rows(random_numbers, 4);
            if (random_numbers.below(2) == 0) {
                check_refused(group, {n, rows, r, m, other});
            } else {
                check_refused(group, {n, other, r, m, rows});
            }
        }
    }
    group.finish();
}

// Good requests in which one to five fields get any value at all.
void group_random() {
    Group group("damaged requests, random");
    for (unsigned round = 0; round < 100000; round++) {
        const unsigned n = unsigned(1 + random_numbers.below(4));
        const unsigned r = unsigned(random_numbers.below(8));
        Request q = any_request(random_numbers, n, r, unsigned(random_numbers.below(8)));
        const std::size_t fields = 1 + random_numbers.below(31);
        if (fields & 1) q.n = unsigned(random_numbers.below(256));
        if (fields & 2) q.table = any_rows(random_numbers, 4);
        if (fields & 4) q.r = unsigned(random_numbers.below(256));
        if (fields & 8) q.m = unsigned(random_numbers.below(256));
        if (fields & 16) q.free = any_rows(random_numbers, unsigned(1 + random_numbers.below(4)));
        check_refused(group, q);
    }
    group.finish();
}

void group_numbers_seen() {
    Group group("number of damaged requests");
    group.check(damaged_requests >= 100000, "damaged requests", "fewer than 100000");
    std::printf("%lu damaged requests, each through the seven entries:", damaged_requests);
    for (int number : {2, 3, 24, 4, 5}) {
        group.check(seen[number] >= 1000, "number " + std::to_string(number), "fewer than 1000");
        std::printf(" %lu with %d%s", seen[number], number, number == 5 ? "\n" : ",");
    }
    group.finish();
}

// ---------------------------------------------------------------------------
// Requests as lines
// ---------------------------------------------------------------------------

Guarded guarded;

// How often each number came up.
unsigned long lines_read[6] = {0};

bool same_numbers(const Request& p, const Request& q) {
    return p.n == q.n && p.table == q.table && p.free == q.free && p.r == q.r && p.m == q.m;
}

// One text through nk_read_request: the second implementation's number, and its
// request where that is 0, else the numbers of before. Gives the number.
int check_line(Group& group, const std::string& text) {
    const auto any = [](std::size_t count) { return unsigned(random_numbers.below(count)); };
    Request want = {any(256), any(65536), any(256), any(256), any(65536)};
    Lent<std::uint8_t> n(random_numbers, {std::uint8_t(want.n)});
    Lent<std::uint16_t> table(random_numbers, {std::uint16_t(want.table)});
    Lent<std::uint16_t> free_rows(random_numbers, {std::uint16_t(want.free)});
    Lent<std::uint8_t> r(random_numbers, {std::uint8_t(want.r)});
    Lent<std::uint8_t> m(random_numbers, {std::uint8_t(want.m)});
    const std::uint32_t have = nk_read_request(guarded.put(text), text.size(), n.data(),
                                               table.data(), free_rows.data(), r.data(), m.data());
    const Request left = {*n.data(), *table.data(), *r.data(), *m.data(), *free_rows.data()};
    const int number = second::read_request(text, want);
    std::string fault = number_fault("reading", have, std::uint32_t(number));
    if (!same_numbers(left, want)) {
        fault += ", the numbers are " + numbers_of(left) + ", not " + numbers_of(want);
    }
    if (!n.edges_stand() || !table.edges_stand() || !free_rows.edges_stand() || !r.edges_stand() ||
        !m.edges_stand()) {
        fault += ", more than the five numbers is written";
    }
    group.check(fault.empty(), fault.empty() ? "" : shown(text),
                fault.empty() ? "" : fault.substr(2));
    lines_read[number]++;
    return number;
}

// The examples of documents 01 and 02 and of their readings in docs/DECISIONS.md,
// each with its number: the library and the second implementation both give it.
void group_lines_by_hand() {
    struct Row {
        std::string text;
        int number;
    };
    const std::string many(60000, '0'), dashes(60000, '-');
    const Row rows[] = {
        {"", 1},
        {"\n", 1},
        {"1 01 1 1", 1},
        {" 1 01 1 1\n", 1},
        {"1  01 1 1\n", 1},
        {"1 01 1 1 \n", 1},
        {"1 01 1\n", 1},
        {"1 01 1 1 1\n", 1},
        {"1 01 1 1\n\n", 1},
        {"1 01 1 1\n1 01 1 1\n", 1},
        {"1 01 1 1\r\n", 1},
        {"1\t01 1 1\n", 1},
        {"+1 01 1 1\n", 1},
        {"1 0a 1 1\n", 1},
        {"1  1 1\n", 1},
        {"1 01 - 1\n", 1},
        {"1 01 1 -\n", 1},
        {"- 01 1 1\n", 1},
        {"-1 01 1 1\n", 1},
        {"1 01 -1 1\n", 1},
        {"1 01 1 -1\n", 1},
        {"1 01 1- 1\n", 1},
        {"1 0-a 1 1\n", 1},
        {"1 0-\n", 1},
        {"1 -- 1 1", 1},
        {"1 - - 1 1\n", 1},
        {"1 -+ 1 1\n", 1},
        {"- - - -\n", 1},
        {"9 -- 9 -\n", 1},
        {dashes + " 01 1 1\n", 1},
        {"9 x 9 9\n", 1},
        {std::string("1 01 1 1\n\0", 10), 1},
        {"0 01 1 1\n", 2},
        {"5 01 1 1\n", 2},
        {"01 01 1 1\n", 2},
        {"11 01 1 1\n", 2},
        {"9 2 9 9\n", 2},
        {"9 -- 1 1\n", 2},
        {"0 -2- 8 8\n", 2},
        {many + " 01 1 1\n", 2},
        {"1 9 9 9\n", 3},
        {"1 011 1 1\n", 3},
        {"1 0 1 1\n", 3},
        {"1 02 1 1\n", 3},
        {"2 01 1 1\n", 3},
        {"1 " + many + " 1 1\n", 3},
        {"1 -2 1 1\n", 3},
        {"1 0-- 1 1\n", 3},
        {"1 - 1 1\n", 3},
        {"1 --- 8 8\n", 3},
        {"2 -- 1 1\n", 3},
        {"2 -01 9 9\n", 3},
        {"1 9- 9 9\n", 3},
        {"1 " + dashes + " 1 1\n", 3},
        {"1 01 8 1\n", 4},
        {"1 01 00 1\n", 4},
        {"1 01 07 9\n", 4},
        {"1 01 10 1\n", 4},
        {"1 -- 8 8\n", 4},
        {"1 -1 00 1\n", 4},
        {"1 01 1 8\n", 5},
        {"1 01 1 01\n", 5},
        {"1 -- 0 8\n", 5},
        {"2 0--1 7 07\n", 5},
        {"1 01 1 " + many + "\n", 5},
    };
    Group group("lines, by hand");
    for (const Row& row : rows) {
        const int number = check_line(group, row.text);
        group.check(number == row.number, shown(row.text), "second: " + std::to_string(number));
    }
    group.finish();
}

// A line whose request is written out: both read it so.
void check_read(Group& group, const std::string& text, const Request& want) {
    Request q = {90, 91, 92, 93, 94};
    check_line(group, text);
    const int number = second::read_request(text, q);
    group.check(number == 0 && same_numbers(q, want), shown(text),
                "second: read as " + numbers_of(q));
}

void group_lines_taken() {
    Group group("lines that are taken, by hand");
    check_read(group, "1 00 0 0\n", {1, 0x0, 0, 0});
    check_read(group, "1 01 1 1\n", {1, 0x2, 1, 1});
    check_read(group, "2 1000 7 0\n", {2, 0x1, 7, 0});
    check_read(group, "2 0110 4 2\n", {2, 0x6, 4, 2});
    check_read(group, "3 00000001 0 7\n", {3, 0x80, 0, 7});
    check_read(group, "4 1100000000000001 7 7\n", {4, 0x8003, 7, 7});
    check_read(group, "4 1111111111111111 7 7\n", {4, 0xFFFF, 7, 7});
    check_read(group, "1 0- 1 1\n", {1, 0x0, 1, 1, 0x2});
    check_read(group, "1 -1 0 7\n", {1, 0x2, 0, 7, 0x1});
    check_read(group, "1 -- 0 0\n", {1, 0x0, 0, 0, 0x3});
    check_read(group, "2 -10- 4 2\n", {2, 0x2, 4, 2, 0x9});
    check_read(group, "3 1-0-1-0- 7 7\n", {3, 0x11, 7, 7, 0xAA});
    check_read(group, "4 1010001010------ 3 2\n", {4, 0x0145, 3, 2, 0xFC00});
    check_read(group, "4 ---------------1 7 7\n", {4, 0x8000, 7, 7, 0x7FFF});
    check_read(group, "4 ---------------- 7 0\n", {4, 0x0, 7, 0, 0xFFFF});
    group.finish();
}

// Every good request for n up to 2; for n = 3 every one without free rows, and
// every table with some r and M; for n = 4 every table without free rows and many
// others with some r and M.
void group_good_lines() {
    Group group("lines of good requests");
    const auto check = [&](const Request& q) {
        const std::string line = line_of(q) + "\n";
        group.check(check_line(group, line) == 0, shown(line), "second: refused");
        Request read = {0, 0, 0, 0};
        second::read_request(line, read);
        group.check(same_numbers(read, q), shown(line), "second: read as " + numbers_of(read));
    };
    const auto some = [&](Request q) {
        q.r = unsigned(random_numbers.below(8));
        q.m = unsigned(random_numbers.below(8));
        check(q);
    };
    for (unsigned n = 1; n <= 3; n++) {
        for (unsigned number = 0; number < tables_with_free(n); number++) {
            Request q = {n, 0, 0, 0};
            set_table(q, number);
            if (n == 3) some(q);
            if (n == 3 && q.free != 0) continue;
            for (unsigned r_and_m = 0; r_and_m < 64; r_and_m++) {
                q.r = r_and_m / 8;
                q.m = r_and_m % 8;
                check(q);
            }
        }
    }
    for (unsigned table = 0; table <= 0xFFFF; table++) {
        some({4, table, 0, 0});
        some(any_request(random_numbers, 4, 0, 0));
    }
    group.finish();
}

// Every text of up to nine bytes, the length of the shortest good line, of the
// bytes 0 or -, 1, space and newline.
void group_short_lines() {
    Group group("all short lines");
    for (const char* bytes : {"01 \n", "-1 \n"}) {
        for (std::size_t length = 0; length <= 9; length++) {
            std::string text(length, ' ');
            for (std::size_t choice = 0; choice < std::size_t(1) << (2 * length); choice++) {
                for (std::size_t i = 0; i < length; i++) text[i] = bytes[choice >> (2 * i) & 3];
                check_line(group, text);
            }
        }
    }
    group.finish();
}

// Good lines in which one byte is any other, left out or put in, and the parts
// of them before and after each place.
void group_one_byte() {
    Group group("lines with one byte changed");
    for (const std::string line : {"1 01 1 1\n", "2 0110 4 2\n", "2 -01- 4 2\n", "3 11101000 5 2\n",
                                   "4 0001001100011111 5 2\n"}) {
        for (std::size_t place = 0; place <= line.size(); place++) {
            const std::string before = line.substr(0, place), after = line.substr(place);
            check_line(group, before);
            check_line(group, after);
            if (!after.empty()) check_line(group, before + after.substr(1));
            for (int byte = 0; byte < 256; byte++) {
                check_line(group, before + char(byte) + after);
                if (!after.empty()) check_line(group, before + char(byte) + after.substr(1));
            }
        }
    }
    group.finish();
}

char any_byte() {
    static const std::string set = "0123456789  \n\n-+\tx\r";
    return random_numbers.below(30) == 0 ? char(random_numbers.below(256))
                                         : set[random_numbers.below(set.size())];
}

// One to three changes of a text.
std::string damaged(std::string text) {
    for (std::size_t changes = 1 + random_numbers.below(3); changes > 0; changes--) {
        const std::size_t place = random_numbers.below(text.size() + 1);
        switch (random_numbers.below(text.size() == place ? 2 : 6)) {
            case 0: text.insert(place, 1, any_byte()); break;
            case 1: text.insert(place, std::to_string(random_numbers.below(20))); break;
            case 2: text.erase(place, 1); break;
            case 3: text.resize(place); break;
            default: text[place] = any_byte(); break;
        }
    }
    return text;
}

// A request as its line, with digits outside their ranges in some cases, and free
// rows in most. The clause file of some is above 65,536 bytes.
std::string any_line() {
    const std::size_t n = 1 + random_numbers.below(4);
    const auto digit = [](std::size_t most) { return std::to_string(random_numbers.below(most)); };
    const bool bad_n = random_numbers.below(8) == 0, bad_table = random_numbers.below(8) == 0;
    std::string line = (bad_n ? digit(10) : std::to_string(n)) + " ";
    // one of so many rows is free; none where it is 1
    const std::size_t free_one = std::size_t(1) << random_numbers.below(6);
    for (std::size_t row = 0; row < (std::size_t(1) << n); row++) {
        line += random_numbers.below(free_one) == 1 ? "-" : digit(bad_table ? 3 : 2);
    }
    return line + " " + digit(9) + " " + digit(9) + "\n";
}

// Lines of requests, half of them damaged, and texts of any bytes.
void group_any_lines() {
    Group group("any lines");
    for (unsigned round = 0; round < 200000; round++) {
        check_line(group, round % 2 == 0 ? any_line() : damaged(any_line()));
    }
    for (unsigned round = 0; round < 50000; round++) {
        std::string text(random_numbers.below(round % 100 == 0 ? 5000 : 40), ' ');
        for (char& c : text) c = round % 2 == 0 ? any_byte() : char(random_numbers.below(256));
        check_line(group, text);
    }
    group.finish();
}

// Fields of many digits or dashes. In 8 or 16 bits some of their lengths would be
// good.
void group_long_lines() {
    Group group("lines with long runs of digits");
    std::vector<std::size_t> lengths = {300, 4095, 4096, 4097, 1000000};
    for (std::size_t few : {0, 1, 2, 3, 4, 5, 7, 8, 9, 15, 16, 17}) {
        for (std::size_t wrapped : {0, 256, 65536}) lengths.push_back(few + wrapped);
    }
    for (std::size_t field = 0; field < 4; field++) {
        for (std::size_t length : lengths) {
            for (const char digit : {'0', '1', '7', '9', '-'}) {
                const std::string n = std::to_string(1 + random_numbers.below(4));
                const std::string table(std::size_t(1) << (n[0] - '0'), '1');
                std::string fields[] = {n, table, "7", "7"};
                fields[field] = std::string(length, digit);
                const std::string line =
                    fields[0] + " " + fields[1] + " " + fields[2] + " " + fields[3];
                check_line(group, line + "\n");
                if (length > 1) check_line(group, line.substr(0, line.size() - 1 - length / 2));
            }
        }
    }
    group.finish();
}

void group_lines_seen() {
    Group group("number of lines");
    unsigned long all = 0;
    for (unsigned long count : lines_read) all += count;
    std::printf("%lu lines read:", all);
    for (int number = 0; number <= 5; number++) {
        group.check(lines_read[number] >= 1000, "number " + std::to_string(number), "too few");
        std::printf(" %lu with %d%s", lines_read[number], number, number == 5 ? "\n" : ",");
    }
    group.finish();
}

// ---------------------------------------------------------------------------
// Texts through the programs
// ---------------------------------------------------------------------------

void write_text(const std::string& name, const std::string& text) {
    std::ofstream out(name, std::ios::binary);
    out.write(text.data(), std::streamsize(text.size()));
}

// Runs a program in a folder, with the file `in` there as its standard input,
// and gives what it prints.
std::string output_of(const std::string& program, const std::string& folder) {
    std::fflush(stdout);
    const pid_t child = fork();
    if (child == 0) {
        if (chdir(folder.c_str()) != 0) _exit(100);
        dup2(open("in", O_RDONLY), 0);
        dup2(open("out", O_WRONLY | O_CREAT | O_TRUNC, 0666), 1);
        execl(program.c_str(), program.c_str(), static_cast<char*>(nullptr));
        _exit(101);
    }
    int status = 0;
    if (child < 0 || waitpid(child, &status, 0) != child) return "the program does not run";
    if (!WIFEXITED(status) || WEXITSTATUS(status) >= 100) return "the program does not end";
    return text_of_file(folder + "/out");
}

// What the programs have said, by the first word and, for refusals, the number.
struct Said {
    unsigned long written = 0, refused[25] = {0}, other = 0;

    void note(const std::string& text) {
        if (text.compare(0, 8, "refused ") == 0) {
            refused[std::size_t(std::stoi(text.substr(8))) % 25]++;
        } else if (text.compare(0, 5, "p cnf") == 0) {
            written++;
        } else {
            other++;
        }
    }

    unsigned long all_refused() const {
        unsigned long sum = 0;
        for (unsigned long count : refused) sum += count;
        return sum;
    }
};

void check_output(Group& group, const std::string& have, const std::string& want,
                  const std::string& input) {
    const bool same = have == want;
    group.check(same, same ? "" : shown(input), same ? "" : shown(have) + ", not " + shown(want));
}

// The program `file` on requests, half of them damaged as texts.
void group_file(const std::string& program, const std::string& folder) {
    Group group("requests through the program file");
    Said said;
    const unsigned texts = 1000;
    for (unsigned round = 0; round < texts; round++) {
        const std::string input = round % 2 == 0 ? any_line() : damaged(any_line());
        write_text(folder + "/in", input);
        const std::string want = second::file_output(input);
        check_output(group, output_of(program, folder), want, input);
        said.note(want);
    }
    for (int number = 1; number <= 6; number++) {
        group.check(said.refused[number] >= 20, "refused " + std::to_string(number), "too few");
    }
    std::printf("%u requests through the program file: %lu files, refused", texts, said.written);
    for (int number = 1; number <= 6; number++) {
        std::printf(" %lu with %d%s", said.refused[number], number, number == 6 ? "\n" : ",");
    }
    group.finish();
}

// The refutation of a cell, for k - 1, with gaps between its ids in half of the
// cases.
std::string any_gaps(const std::string& refutation, Request q) {
    if (q.r == 0 || random_numbers.below(2) == 0) return refutation;
    unsigned V = 0, C = 0, T = 0;
    q.r--;
    second::counts(q, V, C, T);
    return gapped(refutation, C, all_gaps[random_numbers.below(3)], random_numbers.next());
}

// The program `report` on cells that are given as words, and on damaged copies
// of their files.
void group_report(const std::string& program, const std::string& folder, int count, char** words) {
    Group group("cells through the program report");
    Said said;
    const int rounds = 300;
    for (int round = 0; round < rounds; round++) {
        char** const cell = words + 6 * (round % (count / 6));
        const std::string line = std::string(cell[2]) + " " + cell[3] + " " + cell[4] + " " + cell[5];
        std::string files[] = {line + "\n", text_of_file(cell[0]),
                               any_gaps(text_of_file(cell[1]), request_of(cell + 2))};
        std::string& file = files[random_numbers.below(3)];
        if (round % 4 > 0) file = damaged(file);
        const char* const names[] = {"/request.txt", "/answer.txt", "/refutation.txt"};
        for (int k = 0; k < 3; k++) write_text(folder + names[k], files[k]);
        const std::string want = second::report_output(files[0], files[1], files[2]);
        check_output(group, output_of(program, folder), want, files[0] + files[1] + files[2]);
        said.note(want);
    }
    std::printf("%d cells through the program report: %lu refused, %lu others\n", rounds,
                said.all_refused(), said.other);
    group.check(said.other >= 50 && said.all_refused() >= 50, "report", "too few of a kind");
    group.finish();
}

void run_all() {
    group_order();
    group_mixtures();
    group_tables();
    group_random();
    group_numbers_seen();
    group_lines_by_hand();
    group_lines_taken();
    group_good_lines();
    group_short_lines();
    group_one_byte();
    group_any_lines();
    group_long_lines();
    group_lines_seen();
}

}  // namespace

int main(int count, char** words) {
    if (count > 5 && count % 6 == 5 && std::string(words[1]) == "--programs") {
        std::error_code ignored;
        std::filesystem::create_directories(words[4], ignored);
        group_file(std::filesystem::absolute(words[2]).string(), words[4]);
        group_report(std::filesystem::absolute(words[3]).string(), words[4], count - 5, words + 5);
    } else if (count == 1) {
        run_all();
    } else {
        std::fprintf(stderr, "usage: request_test [--programs FILE REPORT FOLDER "
                             "ANSWER REFUTATION n table k m ...]\n");
        return 2;
    }
    return counts();
}
