// Compares the proved library's clause files with those of the second
// implementation, byte by byte, and V, C and T with its counts.
//
//   c++ -std=c++17 -O2 -o file_test file_test.cpp LIBRARY.a
//   file_test                  runs all groups of checks
//   file_test --dump FOLDER    writes clause files for solvers, checks only these
//   file_test --write FOLDER n table r m ...
//                              the same for these requests, four words for each
//
// One line is printed for each group that fails. The last line is
// "N passed, M failed", in groups. The exit status is 0 only if M is 0.

#include <algorithm>
#include <cstdint>
#include <cstdio>
#include <filesystem>
#include <fstream>
#include <iterator>
#include <string>
#include <vector>

#include "../second/clauses.hpp"
#include "files.hpp"
#include "checks.hpp"
#include "entries.hpp"
#include "lent.hpp"
#include "nordkelch.h"

namespace {

using Bytes = std::vector<std::uint8_t>;

Random random_numbers(20240607);

// ---------------------------------------------------------------------------
// Calls of the library
// ---------------------------------------------------------------------------

std::uint32_t call_size(const Request& q, std::uint64_t& size) {
    return ask(nk_file_size, q, &size);
}

std::uint32_t call_write(const Request& q, std::uint8_t* buffer, std::size_t buffer_length,
                         std::uint64_t& length) {
    return ask(nk_write_file, q, buffer, buffer_length, &length);
}

// Bytes kept before and after each lent buffer; they must stand.
const std::size_t margin = 64;

// One call of nk_write_file with a buffer inside a larger array of
// pseudo-random bytes. `after` holds the whole array after the call, `before`
// what it was.
struct Writing {
    Bytes before;
    Bytes after;
    std::size_t start;
    std::uint64_t length_before;
    std::uint64_t length;
    std::uint32_t answer;
};

// A pool of pseudo-random bytes. Each array starts at another place of it.
const Bytes& pool() {
    static Bytes bytes;
    if (bytes.empty()) {
        bytes.resize(1u << 21);
        for (auto& byte : bytes) byte = std::uint8_t(random_numbers.next() >> 40);
    }
    return bytes;
}

Writing write_inside(const Request& q, std::size_t buffer_length) {
    Writing w;
    w.start = margin + random_numbers.next() % 8;
    const std::size_t all = w.start + buffer_length + margin;
    const std::size_t from = random_numbers.next() % (pool().size() - all);
    w.before.assign(pool().begin() + std::ptrdiff_t(from),
                    pool().begin() + std::ptrdiff_t(from + all));
    w.after = w.before;
    w.length_before = random_numbers.next();
    w.length = w.length_before;
    w.answer = call_write(q, w.after.data() + w.start, buffer_length, w.length);
    return w;
}

// ---------------------------------------------------------------------------
// Checks of one request
// ---------------------------------------------------------------------------

// Where two arrays of one size differ first, or "equal".
std::string first_difference(const Bytes& have, const Bytes& want, std::size_t start) {
    for (std::size_t i = 0; i < have.size(); i++) {
        if (have[i] == want[i]) continue;
        return "byte " + std::to_string(long(i) - long(start)) + " is " + std::to_string(have[i]) +
               ", not " + std::to_string(want[i]);
    }
    return "equal";
}

// A buffer that is long enough: the file's bytes, its length, the rest stands.
void check_written(Group& group, const Request& q, const std::string& file, std::size_t room) {
    const std::string who = line_of(q), where = "buffer of " + std::to_string(room) + " bytes: ";
    const Writing w = write_inside(q, room);
    Bytes want = w.before;
    std::copy(file.begin(), file.end(), want.begin() + std::ptrdiff_t(w.start));
    group.check(w.answer == 0, who, where + "answer " + std::to_string(w.answer) + ", not 0");
    group.check(w.length == file.size(), who,
                where + "length " + std::to_string(w.length) + ", not " +
                    std::to_string(file.size()));
    const bool same = w.after == want;
    group.check(same, who, same ? "" : where + first_difference(w.after, want, w.start));
}

// A refused call of nk_write_file: the number, and all stands.
void check_refused_write(Group& group, const Request& q, const std::string& who, unsigned number,
                         std::size_t room) {
    const std::string where = "refused, buffer of " + std::to_string(room) + " bytes: ";
    const Writing w = write_inside(q, room);
    group.check(w.answer == number, who,
                where + "answer " + std::to_string(w.answer) + ", not " + std::to_string(number));
    group.check(w.length == w.length_before, who, where + "length is written");
    const bool same = w.after == w.before;
    group.check(same, who, same ? "" : where + first_difference(w.after, w.before, w.start));
}

// A refused call of nk_file_size: the number, and the size stands.
void check_refused_size(Group& group, const Request& q, const std::string& who, unsigned number) {
    const std::uint64_t before = random_numbers.next();
    std::uint64_t size = before;
    const std::uint32_t answer = call_size(q, size);
    group.check(answer == number, who,
                "size answers " + std::to_string(answer) + ", not " + std::to_string(number));
    group.check(size == before, who, "refused, but size is written");
}

// "The size of file becomes exactly the length that writing returns".
void check_size(Group& group, const Request& q, std::size_t length) {
    std::uint64_t size = random_numbers.next();
    const std::uint32_t answer = call_size(q, size);
    group.check(answer == 0, line_of(q), "size answers " + std::to_string(answer) + ", not 0");
    group.check(size == length, line_of(q),
                "size " + std::to_string(size) + ", not the length " + std::to_string(length));
}

// V, C and T.
struct Sizes {
    unsigned variables = 0;
    unsigned clauses = 0;
    unsigned literals = 0;

    bool operator==(const Sizes& other) const {
        return variables == other.variables && clauses == other.clauses &&
               literals == other.literals;
    }
};

std::string sizes_text(const Sizes& sizes) {
    return std::to_string(sizes.variables) + " " + std::to_string(sizes.clauses) + " " +
           std::to_string(sizes.literals);
}

Sizes any_sizes() {
    const auto any = [] { return unsigned(random_numbers.next() >> 32); };
    return {any(), any(), any()};
}

// One call of nk_sizes: the second implementation's number, and its V, C and T
// where that is 0, else the sizes of before. Gives what the library left.
Sizes check_sizes(Group& group, const Request& q) {
    Sizes want = any_sizes();
    Lent<std::uint32_t> variables(random_numbers, {want.variables});
    Lent<std::uint32_t> clauses(random_numbers, {want.clauses});
    Lent<std::uint32_t> literals(random_numbers, {want.literals});
    const std::uint32_t answer =
        ask(nk_sizes, q, variables.data(), clauses.data(), literals.data());
    const Sizes have = {*variables.data(), *clauses.data(), *literals.data()};
    const std::uint32_t number = std::uint32_t(second::refusal(q));
    if (number == 0) second::counts(q, want.variables, want.clauses, want.literals);
    const bool same = answer == number && have == want && variables.edges_stand() &&
                      clauses.edges_stand() && literals.edges_stand();
    group.check(same, same ? "" : numbers_of(q),
                same ? ""
                     : "sizes answers " + std::to_string(answer) + " with " + sizes_text(have) +
                           ", not " + std::to_string(number) + " with " + sizes_text(want));
    return have;
}

// The second implementation against itself: counts by formula, counts of the
// clauses, every literal from 1 to V. Each variable is named, but for X(0,1)
// where there is no clause at all.
void check_counts(Group& group, const Request& q) {
    unsigned V = 0, C = 0, T = 0;
    second::counts(q, V, C, T);
    const auto all = second::clauses(q);
    std::size_t literals = 0;
    bool inside = true;
    std::vector<bool> named(V + 1, false);
    for (const auto& clause : all) {
        literals += clause.size();
        for (int literal : clause) {
            const unsigned variable = unsigned(literal < 0 ? -literal : literal);
            if (variable < 1 || variable > V) {
                inside = false;
            } else {
                named[variable] = true;
            }
        }
    }
    const bool every = std::count(named.begin() + 1, named.end(), true) == long(C == 0 ? 0 : V);
    group.check(all.size() == C, line_of(q), "second: C is not the number of clauses");
    group.check(literals == T, line_of(q), "second: T is not the number of literals");
    group.check(inside, line_of(q), "second: a variable outside 1 to V");
    group.check(every, line_of(q), "second: a variable that no clause names");
}

// All checks of a good request against the file that it must have. The size is
// this file's length: a buffer of that many bytes or more is enough, one of a byte
// less, or of still fewer, is not.
void check_file(Group& group, const Request& q, const std::string& file) {
    const std::size_t length = file.size();
    check_sizes(group, q);
    check_size(group, q, length);
    check_written(group, q, file, length);
    check_written(group, q, file, length + 1);
    check_written(group, q, file, length + 2 + random_numbers.below(length + 300));
    check_refused_write(group, q, line_of(q), 6, length - 1);
    check_refused_write(group, q, line_of(q), 6, random_numbers.below(length));
    check_refused_write(group, q, line_of(q), 6, 0);
}

// ---------------------------------------------------------------------------
// Groups for each n, r, M
// ---------------------------------------------------------------------------

// The tables without free rows for one (n, r, M): every table for n = 1 and 2,
// and for n = 3 if the files are small; otherwise fixed patterns and some
// pseudo-random ones.
std::vector<unsigned> tables_for(unsigned n, unsigned r, unsigned m) {
    const unsigned rows = 1u << n, all_on = (1u << rows) - 1;
    std::vector<unsigned> tables;
    if (n <= 2 || (n == 3 && r <= 2 && m <= 2)) {
        for (unsigned table = 0; table <= all_on; table++) tables.push_back(table);
        return tables;
    }
    // All off, all on, row 0, the last row, each input or its complement,
    // odd number of ones, at least half of the ones.
    const unsigned fixed[] = {0x0000, 0xFFFF, 0x0001, 1u << (rows - 1), 0xAAAA,
                              0x3333, 0x00FF, 0x6996, 0xE8E8};
    for (unsigned table : fixed) tables.push_back(table & all_on);
    const unsigned more = r <= 3 ? 12 : 4;
    for (unsigned k = 0; k < more; k++) {
        tables.push_back(unsigned(random_numbers.next() >> 32) & all_on);
    }
    return tables;
}

// Requests with free rows for one (n, r, M): every table for n = 1, and for n = 2
// if the files are small; otherwise all rows free, all but the first or the last,
// only one of them, all off rows, all on rows, and pseudo-random ones.
std::vector<Request> with_free_rows(unsigned n, unsigned r, unsigned m) {
    const unsigned rows = 1u << n, all = (1u << rows) - 1, last = 1u << (rows - 1);
    std::vector<Request> requests;
    if (n == 1 || (n == 2 && r <= 2)) {
        for (unsigned number = 0; number < tables_with_free(n); number++) {
            Request q = {n, 0, r, m};
            set_table(q, number);
            if (q.free != 0) requests.push_back(q);
        }
        return requests;
    }
    for (unsigned one : {1u, last}) {
        requests.push_back({n, 0, r, m, all & ~one});
        requests.push_back({n, one, r, m, all & ~one});
        requests.push_back({n, any_rows(random_numbers, n) & ~one, r, m, one});
    }
    const unsigned table = any_rows(random_numbers, n);
    requests.push_back({n, 0, r, m, all});
    requests.push_back({n, table, r, m, all & ~table});
    requests.push_back({n, 0, r, m, table});
    const unsigned more = r <= 3 ? 6 : 2;
    for (unsigned k = 0; k < more; k++) requests.push_back(any_request(random_numbers, n, r, m));
    return requests;
}

void group_of(unsigned n, unsigned r, unsigned m) {
    Group group("n=" + std::to_string(n) + " r=" + std::to_string(r) + " M=" + std::to_string(m));
    std::vector<Request> requests = with_free_rows(n, r, m);
    for (unsigned table : tables_for(n, r, m)) requests.push_back({n, table, r, m});
    for (const Request& q : requests) {
        check_counts(group, q);
        check_file(group, q, second::file(q));
    }
    group.finish();
}

void groups_of_files() {
    for (unsigned n = 1; n <= 4; n++) {
        for (unsigned r = 0; r <= 7; r++) {
            for (unsigned m = 0; m <= 7; m++) group_of(n, r, m);
        }
    }
}

// A request with as many on rows and as many free rows, in other places.
Request spread(Request q) {
    for (std::size_t row = std::size_t(1) << q.n; row > 1; row--) {
        const std::size_t other = random_numbers.below(row);
        for (unsigned* rows : {&q.table, &q.free}) {
            const unsigned differ = (*rows >> other ^ *rows >> (row - 1)) & 1;
            *rows ^= differ << other ^ differ << (row - 1);
        }
    }
    return q;
}

// The larger of each.
void raise(Sizes& most, const Sizes& sizes) {
    most.variables = std::max(most.variables, sizes.variables);
    most.clauses = std::max(most.clauses, sizes.clauses);
    most.literals = std::max(most.literals, sizes.literals);
}

// V, C and T of each n, r and M: every table without free rows for n up to 3,
// every table for n up to 2, every number of on rows and of free rows for n = 3 and
// 4; then every table without free rows for n = 4 with some r and M. The most of
// any request, and of any with r up to 6, stand in host/nordkelch.h. With n = 3 and
// 4 also the size of the file: where a row's numbers get one digit more depends on
// r, M and the rows before it.
void group_sizes() {
    Group group("sizes of all requests");
    Sizes most, most_to_6;
    const auto check = [&](const Request& q) {
        const Sizes sizes = check_sizes(group, q);
        raise(most, sizes);
        if (q.r < 7) raise(most_to_6, sizes);
    };
    for (unsigned r = 0; r <= 7; r++) {
        for (unsigned m = 0; m <= 7; m++) {
            for (unsigned n = 1; n <= 3; n++) {
                for (unsigned table = 0; table < 1u << (1u << n); table++) check({n, table, r, m});
            }
            for (unsigned n = 1; n <= 2; n++) {
                for (unsigned number = 0; number < tables_with_free(n); number++) {
                    Request q = {n, 0, r, m};
                    set_table(q, number);
                    check(q);
                }
            }
            for (unsigned n = 3; n <= 4; n++) {
                const unsigned rows = 1u << n;
                for (unsigned on = 0; on <= rows; on++) {
                    for (unsigned free = 0; on + free <= rows; free++) {
                        const unsigned free_rows = ((1u << free) - 1) << on;
                        const Request q = spread({n, (1u << on) - 1, r, m, free_rows});
                        check(q);
                        check_size(group, q, second::file(q).size());
                    }
                }
            }
        }
    }
    for (unsigned table = 0; table <= 0xFFFF; table++) {
        check({4, table, unsigned(random_numbers.below(8)), unsigned(random_numbers.below(8))});
    }
    group.check(most == Sizes{1856, 27547, 77088}, "any request", sizes_text(most));
    group.check(most_to_6 == Sizes{1595, 20978, 58140}, "r up to 6", sizes_text(most_to_6));
    group.finish();
}

// ---------------------------------------------------------------------------
// Groups for refused requests
// ---------------------------------------------------------------------------

// The number comes before the short buffer too: room 0 gives 2 to 5 or 24, not 6.
void check_refused(Group& group, const Request& q, unsigned number) {
    check_sizes(group, q);
    check_refused_size(group, q, numbers_of(q), number);
    check_refused_write(group, q, numbers_of(q), number, 4096);
    check_refused_write(group, q, numbers_of(q), number, 0);
}

// Requests with the number that is expected, written out.
void group_refused_by_hand() {
    struct Row {
        Request q;
        unsigned number;
    };
    const Row rows[] = {
        {{0, 0x0000, 0, 0}, 2},
        {{5, 0x0000, 0, 0}, 2},
        {{255, 0x0000, 0, 0}, 2},
        {{0, 0xFFFF, 8, 8}, 2},
        {{5, 0xFFFF, 255, 255}, 2},
        {{16, 0x0001, 8, 0}, 2},
        {{1, 0x0004, 0, 0}, 3},
        {{1, 0x8000, 0, 0}, 3},
        {{1, 0x0007, 7, 7}, 3},
        {{2, 0x0010, 0, 0}, 3},
        {{2, 0xFFFF, 8, 8}, 3},
        {{2, 0x8000, 1, 8}, 3},
        {{3, 0x0100, 0, 0}, 3},
        {{3, 0x8000, 255, 0}, 3},
        {{3, 0xFF00, 255, 255}, 3},
        {{1, 0x0003, 8, 0}, 4},
        {{1, 0x0000, 255, 0}, 4},
        {{2, 0x000F, 8, 8}, 4},
        {{3, 0x00FF, 8, 255}, 4},
        {{4, 0xFFFF, 8, 8}, 4},
        {{4, 0x8000, 255, 255}, 4},
        {{1, 0x0003, 0, 8}, 5},
        {{2, 0x000F, 7, 8}, 5},
        {{3, 0x00FF, 7, 255}, 5},
        {{4, 0xFFFF, 7, 8}, 5},
        {{4, 0x0000, 0, 255}, 5},
        {{4, 0x0000, 7, 128}, 5},
        // with free rows, which come last
        {{0, 1, 9, 9, 1}, 2},
        {{1, 5, 1, 1, 1}, 3},
        {{1, 0, 0, 0, 0xFFFF}, 3},
        {{1, 1, 9, 1, 1}, 24},
        {{1, 3, 0, 0, 3}, 24},
        {{4, 0x8000, 7, 7, 0x8000}, 24},
        {{1, 1, 8, 8, 2}, 4},
        {{1, 0, 0, 8, 3}, 5},
        {{4, 0, 7, 255, 0xFFFF}, 5},
    };
    Group group("refused requests, by hand");
    for (const Row& row : rows) check_refused(group, row.q, row.number);
    group.finish();
}

// Every mixture of good and bad fields, the number from the second
// implementation.
void group_refused_mixtures() {
    Group group("refused requests, mixtures");
    const unsigned tables[] = {0, 1, 3, 4, 8, 15, 16, 128, 255, 256, 0x8000, 0xFFFF};
    const unsigned bounds[] = {0, 1, 7, 8, 9, 127, 128, 254, 255};
    for (unsigned n : {0u, 1u, 2u, 3u, 4u, 5u, 6u, 16u, 128u, 255u}) {
        for (unsigned table : tables) {
            for (unsigned r : bounds) {
                for (unsigned m : bounds) {
                    const unsigned some = tables[random_numbers.below(std::size(tables))];
                    for (unsigned free : {0u, some}) {
                        const Request q = {n, table, r, m, free};
                        const int number = second::refusal(q);
                        if (number != 0) check_refused(group, q, unsigned(number));
                    }
                }
            }
        }
    }
    group.finish();
}

// A call of nk_sizes and one of nk_file_size: the right number, and the size only
// if it is taken.
void check_taken_or_refused(Group& group, const Request& q) {
    const int number = second::refusal(q);
    check_sizes(group, q);
    if (number != 0) {
        check_refused_size(group, q, numbers_of(q), unsigned(number));
    } else {
        check_size(group, q, second::file(q).size());
    }
}

// Every value of one field, the others good; the table beside free rows, and
// these beside a table.
void group_every_value() {
    Group group("every value of n, r, M, the table and the free rows");
    for (unsigned value = 0; value <= 255; value++) {
        check_taken_or_refused(group, {value, 0, 0, 0});
        for (unsigned n = 1; n <= 4; n++) {
            check_taken_or_refused(group, {n, 1, value, 0});
            check_taken_or_refused(group, {n, 1, 1, value});
        }
    }
    for (unsigned n = 1; n <= 4; n++) {
        for (unsigned rows = 0; rows <= 0xFFFF; rows++) {
            check_taken_or_refused(group, {n, rows, 0, 0});
            check_taken_or_refused(group, {n, rows, 0, 0, 1});
            check_taken_or_refused(group, {n, 2, 0, 0, rows});
        }
    }
    group.finish();
}

// ---------------------------------------------------------------------------
// Expected values that are written out
// ---------------------------------------------------------------------------

// A file written out by hand. The library and the second implementation must
// both give it.
void group_of_text(const std::string& name, const Request& q, const std::string& file) {
    Group group(name);
    group.check(second::file(q) == file, line_of(q), "second: another file");
    check_file(group, q, file);
    group.finish();
}

// "For "1 00 0 0" the file program prints"
void group_p1() {
    group_of_text("P1", {1, 0, 0, 0},
                  "p cnf 5 8\n"
                  "-2 0\n"
                  "3 0\n"
                  "-1 -2 3 0\n"
                  "-1 2 -3 0\n"
                  "-4 0\n"
                  "5 0\n"
                  "-1 -4 5 0\n"
                  "-1 4 -5 0\n");
}

// "P2 "1 01 1 1": V 15, C 38", with the whole file worked out on paper.
// X is 1 to 6, L 7 and 8, S 9 to 12, W 13 and 14, Z 15.
void group_p2() {
    group_of_text("P2", {1, 2, 1, 1},
                  "p cnf 15 38\n"
                  "-1 -4 2 0\n-1 -2 4 0\n-2 -4 1 0\n"
                  "-1 -5 3 0\n-1 -3 5 0\n-3 -5 1 0\n"
                  "-2 -6 3 0\n-2 -3 6 0\n-3 -6 2 0\n"
                  "-4 -6 5 0\n-4 -5 6 0\n-5 -6 4 0\n"
                  "7 8 0\n-7 -8 0\n"
                  "-9 0\n12 0\n"
                  "-1 -9 10 0\n-1 9 -10 0\n"
                  "-2 -9 11 0\n-2 9 -11 0\n"
                  "-3 -9 12 0\n-3 9 -12 0\n"
                  "-4 -10 11 0\n-4 10 -11 0\n"
                  "-5 -10 12 0\n-5 10 -12 0\n"
                  "-6 -11 12 0\n-6 11 -12 0\n"
                  "-8 -10 11 0\n-8 10 -11 0\n"
                  "13 14 15 0\n"
                  "-13 -8 0\n-14 -8 0\n"
                  "-13 1 0\n-14 2 0\n-15 3 0\n"
                  "-13 6 0\n-14 5 0\n");
}

// "P3 r = M = 7, n = 4, all on: 1,856 and 27,547", T = 77,088, and a file of
// 420,799 bytes; with one switch fewer of 311,213, as host/nordkelch.h has it.
void group_p3() {
    Group group("P3");
    const Request q = {4, 0xFFFF, 7, 7};
    const std::string head = "p cnf 1856 27547\n";
    unsigned V = 0, C = 0, T = 0;
    second::counts(q, V, C, T);
    group.check(V == 1856, line_of(q), "second: V is not 1856");
    group.check(C == 27547, line_of(q), "second: C is not 27547");
    group.check(T == 77088, line_of(q), "second: T is not 77088");
    group.check(check_sizes(group, q) == Sizes{1856, 27547, 77088}, line_of(q), "other sizes");

    const std::size_t length = 420799;
    check_size(group, q, length);
    check_size(group, {4, 0xFFFF, 6, 7}, 311213);
    check_refused_write(group, q, line_of(q), 6, length - 1);
    const Writing w = write_inside(q, length);
    const std::string file(w.after.begin() + std::ptrdiff_t(w.start),
                           w.after.begin() + std::ptrdiff_t(w.start + length));
    const auto lines = std::count(file.begin(), file.end(), '\n');
    const auto spaces = std::count(file.begin(), file.end(), ' ');
    group.check(w.answer == 0, line_of(q), "answer is not 0");
    group.check(w.length == length, line_of(q), "the length is not the size");
    group.check(file.compare(0, head.size(), head) == 0, line_of(q), "another first line");
    group.check(lines == 27547 + 1, line_of(q), "not 27548 lines");
    // One space follows each literal, and three are in the first line.
    group.check(spaces == 77088 + 3, line_of(q), "not 77088 literals");
    group.finish();
}

// The request of P4: an on row without switches, after an off row.
void group_p4() {
    group_of_text("the request of P4", {1, 2, 0, 1},
                  "p cnf 4 6\n-2 0\n3 0\n-1 -2 3 0\n-1 2 -3 0\n4 0\n-4 1 0\n");
}

// "1 11 1 2", worked out on paper: it shows the order of the clauses with Z,
// and that g = e stays. X is 1 to 6, L 7 and 8;
// the first row's W and Z are 9 to 14, the second's 15 to 20.
void group_order() {
    group_of_text("order of the clauses of an on row", {1, 3, 1, 2},
                  "p cnf 20 44\n"
                  "-1 -4 2 0\n-1 -2 4 0\n-2 -4 1 0\n"
                  "-1 -5 3 0\n-1 -3 5 0\n-3 -5 1 0\n"
                  "-2 -6 3 0\n-2 -3 6 0\n-3 -6 2 0\n"
                  "-4 -6 5 0\n-4 -5 6 0\n-5 -6 4 0\n"
                  "7 8 0\n-7 -8 0\n"
                  "9 10 11 0\n12 13 14 0\n"
                  "-9 -7 0\n-10 -7 0\n-12 -7 0\n-13 -7 0\n"
                  "-9 1 0\n-10 2 0\n-11 3 0\n"
                  "-9 -12 4 0\n-9 -14 6 0\n-10 -13 4 0\n-10 -14 5 0\n"
                  "-12 6 0\n-13 5 0\n"
                  "15 16 17 0\n18 19 20 0\n"
                  "-15 -8 0\n-16 -8 0\n-18 -8 0\n-19 -8 0\n"
                  "-15 1 0\n-16 2 0\n-17 3 0\n"
                  "-15 -18 4 0\n-15 -20 6 0\n-16 -19 4 0\n-16 -20 5 0\n"
                  "-18 6 0\n-19 5 0\n");
}

// Free rows, worked out on paper from the files above: the clauses of the row are
// gone, and the rows after it begin where it began.
void group_free_rows() {
    group_of_text("all rows free", {1, 0, 0, 0, 3}, "p cnf 1 0\n");
    group_of_text("all rows free, M = 7", {4, 0, 0, 7, 0xFFFF}, "p cnf 1 0\n");
    const std::string first =
        "-1 -4 2 0\n-1 -2 4 0\n-2 -4 1 0\n"
        "-1 -5 3 0\n-1 -3 5 0\n-3 -5 1 0\n"
        "-2 -6 3 0\n-2 -3 6 0\n-3 -6 2 0\n"
        "-4 -6 5 0\n-4 -5 6 0\n-5 -6 4 0\n"
        "7 8 0\n-7 -8 0\n";
    group_of_text("all rows free, one switch", {1, 0, 1, 1, 3}, "p cnf 8 14\n" + first);
    // "1 0- 1 1"
    group_of_text("an off row before a free one", {1, 0, 1, 1, 2},
                  "p cnf 12 30\n" + first +
                      "-9 0\n12 0\n"
                      "-1 -9 10 0\n-1 9 -10 0\n"
                      "-2 -9 11 0\n-2 9 -11 0\n"
                      "-3 -9 12 0\n-3 9 -12 0\n"
                      "-4 -10 11 0\n-4 10 -11 0\n"
                      "-5 -10 12 0\n-5 10 -12 0\n"
                      "-6 -11 12 0\n-6 11 -12 0\n"
                      "-8 -10 11 0\n-8 10 -11 0\n");
    // "1 -1 1 1"
    group_of_text("an on row after a free one", {1, 2, 1, 1, 1},
                  "p cnf 11 22\n" + first +
                      "9 10 11 0\n"
                      "-9 -8 0\n-10 -8 0\n"
                      "-9 1 0\n-10 2 0\n-11 3 0\n"
                      "-9 6 0\n-10 5 0\n");
    // "2 -0-1 0 1" and others have the file of "1 01 0 1"
    for (const Request& q :
         {Request{2, 8, 0, 1, 5}, Request{2, 2, 0, 1, 12}, Request{4, 0x8000, 0, 1, 0x7FFE}}) {
        group_of_text("free rows between, without switches", q,
                      "p cnf 4 6\n-2 0\n3 0\n-1 -2 3 0\n-1 2 -3 0\n4 0\n-4 1 0\n");
    }
}

// The files of requests without free rows are those that were written before
// there were free rows: their FNV-1a sum, over all n, r and M and some tables, was
// worked out by the version before.
void group_unchanged() {
    Group group("files without free rows, as before");
    std::uint64_t sum = 0xCBF29CE484222325u;
    Bytes buffer(420799);
    for (unsigned n = 1; n <= 4; n++) {
        for (unsigned table : {0x0000u, 0xFFFFu, 0x6996u}) {
            for (unsigned r_and_m = 0; r_and_m < 64; r_and_m++) {
                const Request q = {n, table & ((1u << (1u << n)) - 1), r_and_m / 8, r_and_m % 8};
                std::uint64_t length = 0;
                group.check(call_write(q, buffer.data(), buffer.size(), length) == 0, line_of(q),
                            "refused");
                for (std::size_t i = 0; i < length; i++) {
                    sum = (sum ^ buffer[i]) * 0x100000001B3u;
                }
            }
        }
    }
    group.check(sum == 0xABEE883810547454u, "all", "the sum is " + std::to_string(sum));
    group.finish();
}

// "A constant table holds the rows on which each input is 1, for n = 1 to 4,
// in hexadecimal: 2; C A; F0 CC AA; FF00 F0F0 CCCC AAAA."
void group_inputs() {
    const unsigned table[4][4] = {
        {0x2, 0, 0, 0}, {0xC, 0xA, 0, 0}, {0xF0, 0xCC, 0xAA, 0}, {0xFF00, 0xF0F0, 0xCCCC, 0xAAAA}};
    Group group("second: rows on which each input is 1");
    for (unsigned n = 1; n <= 4; n++) {
        for (unsigned v = 0; v < n; v++) {
            for (unsigned row = 0; row < (1u << n); row++) {
                const bool one = ((table[n - 1][v] >> row) & 1) == 1;
                const Request q = {n, 0, 0, 0};
                group.check(second::literal_is_one(n, v, row) == one, line_of(q), "an input");
                group.check(second::literal_is_one(n, n + v, row) != one, line_of(q),
                            "a complement");
            }
        }
    }
    group.finish();
}

// ---------------------------------------------------------------------------
// Files for solvers
// ---------------------------------------------------------------------------

// Pairs of r and M for each n: every r and every M is there.
const unsigned dumped_pairs[][2] = {{0, 0}, {0, 1}, {0, 7}, {1, 0}, {1, 1}, {1, 5}, {2, 2}, {2, 6},
                                    {3, 1}, {3, 3}, {4, 2}, {4, 4}, {5, 2}, {6, 2}, {7, 3}};

// A table for file number k of n: all on, all off, then pseudo-random ones
// that are on where some chosen literals are 1, so that solvers stay quick.
unsigned dumped_table(unsigned n, unsigned k) {
    const unsigned all_on = (1u << (1u << n)) - 1;
    if (k == 1) return all_on;
    if (k == 2) return 0;
    unsigned table = 0;
    const unsigned u = unsigned((random_numbers.next() >> 33) % (2 * n));
    const unsigned v = unsigned((random_numbers.next() >> 33) % (2 * n));
    const unsigned w = unsigned((random_numbers.next() >> 33) % (2 * n));
    for (unsigned row = 0; row < (1u << n); row++) {
        const bool on = second::literal_is_one(n, u, row) &&
                        (second::literal_is_one(n, v, row) || second::literal_is_one(n, w, row));
        if (on) table |= 1u << row;
    }
    return table;
}

// Writes one file, as n_table_r_m.cnf. It is a group of its own.
void dump_file(const std::filesystem::path& folder, const Request& q) {
    const std::string name = std::to_string(q.n) + "_" + table_text(q) + "_" + std::to_string(q.r) +
                             "_" + std::to_string(q.m) + ".cnf";
    Group group(name);
    const std::string want = second::file(q);
    std::uint64_t size = 0, length = 0;
    group.check(call_size(q, size) == 0, line_of(q), "no size");
    group.check(size == want.size(), line_of(q), "size " + std::to_string(size));
    Bytes buffer(want.size());
    group.check(call_write(q, buffer.data(), buffer.size(), length) == 0, line_of(q), "refused");
    group.check(length == want.size(), line_of(q), "length " + std::to_string(length));
    const std::string text(buffer.begin(), buffer.end());
    group.check(text == want, line_of(q), "not the file of the second implementation");
    std::ofstream out(folder / name, std::ios::binary);
    out.write(text.data(), std::streamsize(text.size()));
    out.close();
    group.check(bool(out), line_of(q), "the file cannot be written");
    group.finish();
}

// Pairs of r and M for files with free rows.
const unsigned dumped_with_free[][2] = {{0, 0}, {1, 1}, {2, 2}, {3, 3}, {4, 2}};

void dump(const std::filesystem::path& folder) {
    for (unsigned n = 1; n <= 4; n++) {
        unsigned k = 0;
        for (const auto& pair : dumped_pairs) {
            dump_file(folder, {n, dumped_table(n, k), pair[0], pair[1]});
            k++;
        }
        for (const auto& pair : dumped_with_free) {
            Request q = {n, dumped_table(n, 0), pair[0], pair[1], any_rows(random_numbers, n)};
            // at least one, and with r = 0 all
            q.free |= pair[0] == 0 ? (1u << (1u << n)) - 1 : 1;
            q.table &= ~q.free;
            dump_file(folder, q);
        }
    }
}

void run_all() {
    group_p1();
    group_p2();
    group_p3();
    group_p4();
    group_order();
    group_free_rows();
    group_unchanged();
    group_inputs();
    group_refused_by_hand();
    group_refused_mixtures();
    group_every_value();
    group_sizes();
    groups_of_files();
}

}  // namespace

int main(int count, char** words) {
    const std::string mode = count > 2 ? words[1] : "";
    std::error_code ignored;
    if (!mode.empty()) std::filesystem::create_directories(words[2], ignored);
    if (mode == "--dump" && count == 3) {
        dump(words[2]);
    } else if (mode == "--write" && count % 4 == 3) {
        for (int k = 3; k < count; k += 4) dump_file(words[2], request_of(words + k));
    } else if (count == 1) {
        run_all();
    } else {
        std::fprintf(stderr, "usage: file_test [--dump FOLDER]\n"
                             "       file_test [--write FOLDER n table r m ...]\n");
        return 2;
    }
    return counts();
}
