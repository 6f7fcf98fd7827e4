// Compares the proved library's reading of answers with that of the second
// implementation.
//
//   c++ -std=c++17 -O2 -o answer_test answer_test.cpp LIBRARY.a
//   answer_test                         runs all groups of checks
//   answer_test --read FILE n table r m prints the library's number for a file
//
// One line is printed for each group that fails. The last line is
// "N passed, M failed", in groups. The exit status is 0 only if M is 0.

#include <algorithm>
#include <cstdint>
#include <cstdio>
#include <string>
#include <utility>
#include <vector>

#include "../second/answers.hpp"
#include "files.hpp"
#include "guarded.hpp"
#include "checks.hpp"
#include "entries.hpp"
#include "nordkelch.h"

namespace {

Random random_numbers(20240608);

// ---------------------------------------------------------------------------
// Calls of the library
// ---------------------------------------------------------------------------

Guarded guarded;

std::uint32_t call_answer(const Request& q, const std::string& text) {
    return ask(nk_test_answer, q, guarded.put(text), text.size());
}

// One text: the library and the second implementation give one number.
// The answer is the second implementation's reading.
second::Reading check_same(Group& group, const Request& q, const std::string& text) {
    const second::Reading want = second::read_answer(q, text);
    const std::uint32_t have = call_answer(q, text);
    const bool same = have == std::uint32_t(want.refusal);
    group.check(same, same ? "" : numbers_of(q) + " " + shown(text),
                same ? "" : std::to_string(have) + ", second " + std::to_string(want.refusal));
    return want;
}

// One text whose number is written out: both must give it.
void check_number(Group& group, const Request& q, const std::string& text, int number) {
    const second::Reading want = check_same(group, q, text);
    group.check(want.refusal == number, numbers_of(q) + " " + shown(text),
                "second: " + std::to_string(want.refusal) + ", not " + std::to_string(number));
}

// ---------------------------------------------------------------------------
// Expected numbers that are written out
// ---------------------------------------------------------------------------

// The request "1 01 1 1": X is 1 to 6, L 7 and 8, S 9 to 12, W 13 and 14,
// Z 15; V is 15.
const Request p2 = {1, 2, 1, 1};
const std::string s = "s SATISFIABLE\n";
const std::string values = "1 -2 -3 -4 -5 6 7 -8";
const std::string good = s + "v " + values + " 0\n";

struct Row {
    std::string text;
    int number;
};

void group_of_rows(const std::string& name, const std::vector<Row>& rows) {
    Group group(name);
    for (const Row& row : rows) check_number(group, p2, row.text, row.number);
    group.finish();
}

// "P8 for P2, "s SATISFIABLE", "v 1 -2 -3 -4 -5 6 7 -8 0": labels 0 0 2 2."
void group_p8() {
    Group group("P8");
    const second::Reading reading = check_same(group, p2, good);
    group.check(reading.refusal == 0, shown(good), "second: refused");
    group.check(reading.labels == std::vector<unsigned>{0, 0, 2, 2}, shown(good), "second: labels");
    group.check(reading.literals == std::vector<unsigned>{0}, shown(good), "second: literals");
    group.finish();
}

void group_c_lines() {
    group_of_rows("lines starting with c",
                  {{"c\n" + good, 0},
                   {"copy\n" + good, 0},
                   {"c 1 x -0\n" + s + "c\r\nc\tv 999\nv " + values + " 0\n", 0},
                   {std::string("c\0\xff\r\n", 5) + good, 0},
                   {s + "v 1 -2 -3\nc 1 2 3\ncc\nv -4 -5 6 7 -8 0\n", 0},
                   {good + "c\nc s SATISFIABLE\n", 0},
                   {good + "cv 1\n", 0},
                   {"c\n", 11},
                   {"c", 9},
                   {"c unfinished", 9},
                   {good + "c", 9},
                   {good + "c the end", 9},
                   {" c\n" + good, 9},
                   {"C\n" + good, 9},
                   {good + " c\n", 9}});
}

void group_other_lines() {
    group_of_rows("s lines and other lines",
                  {{"", 11},
                   {s, 11},
                   {"\n", 9},
                   {"\n" + good, 9},
                   {s + "\nv " + values + " 0\n", 9},
                   {good + "\n", 9},
                   {s + good, 9},
                   {s + "v 1\n" + s + "v 0\n", 9},
                   {"v " + values + " 0\n" + s, 9},
                   {"v 0\n", 9},
                   {"v " + values + "\n" + s + "v 0\n", 9},
                   {"s UNSATISFIABLE\n", 9},
                   {"s SATISFIABL\nv 0\n", 9},
                   {"s SATISFIABLE \nv 0\n", 9},
                   {"s SATISFIABLE\r\nv 0\n", 9},
                   {"s  SATISFIABLE\nv 0\n", 9},
                   {"s satisfiable\nv 0\n", 9},
                   {" s SATISFIABLE\nv 0\n", 9},
                   {"s SATISFIABLE", 9},
                   {"s", 9},
                   {"SAT\n1 -2 0\n", 9},
                   {"s\n", 9},
                   {s + "x\n", 9},
                   {s + values + " 0\n", 9},
                   {good + "x\n", 9},
                   {good + s, 9},
                   {good + good, 9},
                   {good + std::string(1, '\0') + "\n", 9}});
}

void group_v_lines() {
    group_of_rows("form of a v line",
                  {{s + "v " + values + "\nv 0\n", 0},
                   {s + "v 1\nv -2\nv -3\nv -4\nv -5\nv 6\nv 7\nv -8\nv 0\n", 0},
                   {s + "v 0\n", 11},
                   {s + "v 1\nv 0\n", 11},
                   {s + "v\n", 9},
                   {s + "v \n", 9},
                   {s + "v  \n", 9},
                   {s + "v 1\nv\nv 0\n", 9},
                   {s + "v1 0\n", 9},
                   {s + "vv 1 0\n", 9},
                   {s + "V 1 0\n", 9},
                   {s + " v 1 0\n", 9},
                   {s + "v", 9},
                   {s + "v ", 9},
                   {s + "v " + values + " 0", 9},
                   {s + "v " + values, 9},
                   {s + "v 999", 9},
                   {s + "v 1 0 2\n", 9},
                   {s + "v " + values + " 0 9\n", 9},
                   {s + "v 0 0\n", 9},
                   {s + "v " + values + " 0 0\n", 9},
                   {good + "v 0\n", 9},
                   {good + "v 9\n", 9},
                   {s + "v " + values + " 0 \n", 9},
                   {s + "v " + values + " 0\r\n", 9},
                   {s + "v " + values + "\r\nv 0\n", 9},
                   {s + "v " + values + " \nv 0\n", 9},
                   {s + "v  " + values + " 0\n", 9},
                   {s + "v 1  -2 -3 -4 -5 6 7 -8 0\n", 9},
                   {s + "v 1\t-2 -3 -4 -5 6 7 -8 0\n", 9},
                   {s + "v\t" + values + " 0\n", 9},
                   {s + "v 999 x\n", 9},
                   {s + "v 1 1 x\n", 9},
                   {s + "v 999 0 0\n", 9},
                   {s + "v 999\nx\n", 10},
                   {s + "v 1 1\nx\n", 10},
                   {s + "v 999\nv", 10},
                   {s + "x\nv 999\n", 9}});
}

void group_numbers() {
    group_of_rows("form of a number",
                  {{s + "v 0000000001 0\n", 9},
                   {s + "v 1000000000 0\n", 9},
                   {s + "v -1000000000 0\n", 9},
                   {s + "v 4294967297 0\n", 9},
                   {s + "v 18446744073709551617 0\n", 9},
                   {s + "v " + std::string(1000, '9') + " 0\n", 9},
                   {s + "v 999999999 0\n", 10},
                   {s + "v -999999999 0\n", 10},
                   {s + "v 100000000 0\n", 10},
                   {s + "v " + values + " -0\n", 9},
                   {s + "v " + values + " +0\n", 9},
                   {s + "v " + values + " 00\n", 9},
                   {s + "v +1 -2 -3 -4 -5 6 7 -8 0\n", 9},
                   {s + "v 01 -2 -3 -4 -5 6 7 -8 0\n", 9},
                   {s + "v 1 -02 -3 -4 -5 6 7 -8 0\n", 9},
                   {s + "v 1 --2 -3 -4 -5 6 7 -8 0\n", 9},
                   {s + "v 1 - 2 -3 -4 -5 6 7 -8 0\n", 9},
                   {s + "v 1 2- -3 -4 -5 6 7 -8 0\n", 9},
                   {s + "v -\n", 9},
                   {s + "v 1 -\n", 9},
                   {s + "v 1-2 0\n", 9},
                   {s + "v 0x1 0\n", 9},
                   {s + "v 1.0 0\n", 9},
                   {s + "v 1/ 0\n", 9},
                   {s + "v 1: 0\n", 9},
                   {s + std::string("v 1\0 0\n", 7), 9}});
}

void group_variables() {
    group_of_rows("variables",
                  {{s + "v " + values + " 15 0\n", 0},
                   {s + "v " + values + " -15 0\n", 0},
                   {s + "v " + values + " 16 0\n", 10},
                   {s + "v " + values + " -16 0\n", 10},
                   {s + "v 16 " + values + " 0\n", 10},
                   {s + "v 1 1 -2 -3 -4 -5 6 7 -8 0\n", 10},
                   {s + "v 1 -1 -2 -3 -4 -5 6 7 -8 0\n", 10},
                   {s + "v " + values + " 1 0\n", 10},
                   {s + "v " + values + "\nv -1 0\n", 10},
                   {s + "v " + values + "\nc\nv -2 0\n", 10},
                   {s + "v " + values + " 7 0\n", 10},
                   {s + "v " + values + " -7 0\n", 10},
                   {s + "v " + values + " -8 0\n", 10},
                   {s + "v " + values + " 8 0\n", 10},
                   {s + "v " + values + " 9 9 -9 0\n", 0},
                   {s + "v 13 -13 13 " + values + " -14 14 0\n", 0},
                   {s + "v -15 15\nv " + values + "\nv 15 -15 12 -12 0\n", 0},
                   {s + "v 9 10 11 -12 13 14 -15 " + values + " 0\n", 0},
                   {s + "v 8 -7 6 5 4 3 2 1 0\n", 0},
                   {s + "v -8 7 6 -5 -4 -3 -2 1 0\n", 0}});
}

void group_missing() {
    std::vector<Row> rows = {{s + "v " + values + "\n", 11},
                             {s + "v " + values + "\nc\n", 11},
                             {s + "v 1 0\n", 11},
                             {s + "v 9 10 11 12 13 14 15 0\n", 11},
                             // 11 comes before 12.
                             {s + "v 1 2 -3 -4 -5 6 7 -8\n", 11},
                             {s + "v 1 2 -4 -5 6 7 8 0\n", 11}};
    const std::string words[] = {"1", "-2", "-3", "-4", "-5", "6", "7", "-8"};
    for (std::size_t left = 0; left < 8; left++) {
        std::string line = "v";
        for (std::size_t i = 0; i < 8; i++) {
            if (i != left) line += " " + words[i];
        }
        rows.push_back({s + line + " 0\n", 11});
    }
    group_of_rows("something missing", rows);
}

void group_no_network() {
    group_of_rows("values that describe no network",
                  {// X(0,1) and X(0,2) without X(1,2), and the other two ways.
                   {s + "v 1 2 -3 -4 -5 -6 7 -8 0\n", 12},
                   {s + "v 1 -2 -3 4 -5 -6 7 -8 0\n", 12},
                   {s + "v -1 2 -3 4 -5 -6 7 -8 0\n", 12},
                   {s + "v -1 -2 -3 4 5 -6 7 -8 0\n", 12},
                   {s + "v 1 2 3 4 5 -6 7 -8 0\n", 12},
                   // No literal, and two.
                   {s + "v 1 -2 -3 -4 -5 6 -7 -8 0\n", 12},
                   {s + "v 1 -2 -3 -4 -5 6 7 8 0\n", 12},
                   // Group 3 isn't looked at.
                   {s + "v -1 -2 -3 -4 -5 -6 -7 8 0\n", 0},
                   {s + "v 1 2 3 4 5 6 7 -8 9 -12 -13 -14 -15 0\n", 0}});
}

// ---------------------------------------------------------------------------
// Requests
// ---------------------------------------------------------------------------

void group_refused_requests() {
    Group group("refused requests, by hand");
    for (const std::string& text : {good, std::string(), std::string("x"), s + "v 999 0\n"}) {
        check_number(group, {0, 2, 1, 1}, text, 2);
        check_number(group, {5, 2, 1, 1}, text, 2);
        check_number(group, {255, 0xFFFF, 255, 255}, text, 2);
        check_number(group, {1, 4, 1, 1}, text, 3);
        check_number(group, {2, 16, 8, 8}, text, 3);
        check_number(group, {3, 256, 1, 1}, text, 3);
        check_number(group, {1, 5, 1, 1, 1}, text, 3);
        check_number(group, {1, 2, 8, 8, 4}, text, 3);
        check_number(group, {1, 2, 1, 1, 2}, text, 24);
        check_number(group, {1, 1, 9, 9, 1}, text, 24);
        check_number(group, {4, 0xFFFF, 7, 7, 0x8000}, text, 24);
        check_number(group, {1, 2, 8, 1}, text, 4);
        check_number(group, {4, 0xFFFF, 255, 255}, text, 4);
        check_number(group, {1, 2, 1, 8}, text, 5);
        check_number(group, {4, 0xFFFF, 7, 255}, text, 5);
    }
    group.finish();
}

// A free row has no variables, so fewer may be named.
void group_free_rows() {
    Group group("free rows, by hand");
    // "1 0- 1 1" has S 9 to 12, "1 -1 1 1" W 9 and 10 and Z 11, "1 -- 1 1" none
    const Request off = {1, 0, 1, 1, 2}, on = {1, 2, 1, 1, 1}, none = {1, 0, 1, 1, 3};
    const std::pair<Request, unsigned> last[] = {{p2, 15}, {off, 12}, {on, 11}, {none, 8}};
    for (const auto& [q, V] : last) {
        check_number(group, q, good, 0);
        for (unsigned x = 9; x <= 17; x++) {
            const std::string text = s + "v " + values + " " + std::to_string(x) + " 0\n";
            check_number(group, q, text, x <= V ? 0 : 10);
        }
    }
    // "1 -- 0 0": X(0,1) alone
    const Request all = {1, 0, 0, 0, 3};
    check_number(group, all, s + "v 1 0\n", 0);
    check_number(group, all, s + "v -1 0\n", 0);
    check_number(group, all, s + "v 0\n", 11);
    check_number(group, all, s + "v 1 2 0\n", 10);
    check_number(group, all, s + "v 1 -1 0\n", 10);
    group.finish();
}

// Any request, with free rows in most cases.
Request any_request(unsigned n, unsigned r, unsigned m) {
    return any_request(random_numbers, n, r, m);
}

// ---------------------------------------------------------------------------
// Answers made from networks
// ---------------------------------------------------------------------------

struct Made {
    std::vector<unsigned> literals;
    std::vector<unsigned> labels;
    std::string text;
};

void shuffle(std::vector<int>& all) {
    for (std::size_t i = all.size(); i > 1; i--) {
        std::swap(all[i - 1], all[random_numbers.below(i)]);
    }
}

// A random network: each terminal goes to one of a random number of nets.
void make_network(const Request& q, Made& made) {
    for (unsigned k = 0; k < q.r; k++) {
        made.literals.push_back(unsigned(random_numbers.below(2 * q.n)));
    }
    const unsigned N = 2 * q.r + 2;
    const std::size_t nets = 1 + random_numbers.below(N);
    std::vector<unsigned> net, lowest(nets, N);
    for (unsigned i = 0; i < N; i++) {
        net.push_back(unsigned(random_numbers.below(nets)));
        if (lowest[net[i]] == N) lowest[net[i]] = i;
        made.labels.push_back(lowest[net[i]]);
    }
}

// The X and L values of the network, and random values for a part of the
// other variables, some of them twice.
std::vector<int> make_values(const Request& q, const Made& made, std::size_t part) {
    std::vector<int> all;
    const int N = int(2 * q.r + 2);
    for (int i = 0; i < N; i++) {
        for (int j = i + 1; j < N; j++) {
            const bool one_net = made.labels[std::size_t(i)] == made.labels[std::size_t(j)];
            all.push_back(one_net ? second::X(q, i, j) : -second::X(q, i, j));
        }
    }
    for (int k = 0; k < int(q.r); k++) {
        for (int v = 0; v < int(2 * q.n); v++) {
            const bool chosen = made.literals[std::size_t(k)] == unsigned(v);
            all.push_back(chosen ? second::L(q, k, v) : -second::L(q, k, v));
        }
    }
    unsigned V = 0, C = 0, T = 0;
    second::counts(q, V, C, T);
    for (int x = int(all.size()) + 1; x <= int(V); x++) {
        if (random_numbers.below(100) >= part) continue;
        all.push_back(random_numbers.below(2) == 0 ? x : -x);
        if (random_numbers.below(20) == 0) all.push_back(random_numbers.below(2) == 0 ? x : -x);
    }
    return all;
}

std::string make_c_line() {
    const char* lines[] = {"c\n",   "c made\n",         "c v 1 0\n",
                           "c\r\n", "cs SATISFIABLE\n", "c  -0 +1 x\n"};
    return lines[random_numbers.below(6)];
}

// An answer in a random order, over several v lines, with c lines between.
// Of the variables that aren't X or L, `part` in 100 are named.
Made make_answer(const Request& q, std::size_t part) {
    Made made;
    make_network(q, made);
    std::vector<int> all = make_values(q, made, part);
    shuffle(all);
    const std::size_t length = 1 + random_numbers.below(all.size() < 40 ? 12 : 40);
    if (random_numbers.below(3) == 0) made.text += make_c_line();
    made.text += s;
    std::size_t place = 0;
    bool ended = false;
    while (!ended) {
        if (random_numbers.below(6) == 0) made.text += make_c_line();
        made.text += "v";
        const std::size_t stop = std::min(all.size(), place + 1 + random_numbers.below(length));
        const bool alone = place == all.size();
        for (; place < stop; place++) made.text += " " + std::to_string(all[place]);
        // The 0 stands behind the last number or on a line of its own.
        ended = alone || (place == all.size() && random_numbers.below(2) == 0);
        made.text += ended ? " 0\n" : "\n";
    }
    if (random_numbers.below(3) == 0) made.text += make_c_line();
    return made;
}

// One group for each n and r.
void groups_of_networks() {
    for (unsigned n = 1; n <= 4; n++) {
        for (unsigned r = 0; r <= 7; r++) {
            Group group("answers from networks, n=" + std::to_string(n) +
                        " r=" + std::to_string(r));
            for (unsigned m : {0u, 1u, 2u, 4u, 7u}) {
                for (unsigned round = 0; round < 4; round++) {
                    const Request q = any_request(n, r, m);
                    const Made made = make_answer(q, round * 30);
                    const second::Reading reading = check_same(group, q, made.text);
                    group.check(reading.refusal == 0, numbers_of(q), "second: refused");
                    group.check(reading.literals == made.literals, numbers_of(q),
                                "second: literals");
                    group.check(reading.labels == made.labels, numbers_of(q), "second: labels");
                }
            }
            group.finish();
        }
    }
}

// ---------------------------------------------------------------------------
// Damaged answers
// ---------------------------------------------------------------------------

char any_byte() {
    const std::string set = "sv c0123456789-\n\r\t+";
    return set[random_numbers.below(set.size())];
}

// The lines of a text, each with its newline.
std::vector<std::string> split(const std::string& text) {
    std::vector<std::string> all;
    for (const second::Line& line : second::lines_of(text)) {
        all.push_back(line.text + (line.finished ? "\n" : ""));
    }
    return all;
}

void damage_lines(std::string& text, std::size_t kind) {
    std::vector<std::string> lines = split(text);
    const std::size_t a = random_numbers.below(lines.size());
    const std::size_t b = random_numbers.below(lines.size());
    if (kind == 0) lines.erase(lines.begin() + std::ptrdiff_t(a));
    if (kind == 1) lines.insert(lines.begin() + std::ptrdiff_t(b), std::string(lines[a]));
    if (kind == 2) std::swap(lines[a], lines[b]);
    text.clear();
    for (const std::string& line : lines) text += line;
}

// Turns the sign of one of the numbers, if the place hits a space before one.
void flip_sign(std::string& text) {
    std::size_t place = text.find(' ', random_numbers.below(text.size()));
    if (place == std::string::npos || place + 1 >= text.size()) return;
    place = place + 1;
    if (text[place] == '-') {
        text.erase(place, 1);
    } else if (text[place] >= '1' && text[place] <= '9') {
        text.insert(place, "-");
    }
}

void damage(std::string& text) {
    if (text.empty()) {
        text += any_byte();
        return;
    }
    const std::size_t a = random_numbers.below(text.size());
    const std::size_t b = random_numbers.below(text.size());
    switch (random_numbers.below(10)) {
        case 0: text[a] = any_byte(); break;
        case 1: text.erase(a, 1); break;
        case 2: text.insert(a, 1, any_byte()); break;
        case 3: std::swap(text[a], text[b]); break;
        case 4: damage_lines(text, 0); break;
        case 5: damage_lines(text, 1); break;
        case 6: damage_lines(text, 2); break;
        case 7: text.resize(a); break;
        default: flip_sign(text); break;
    }
}

// Each refusal that a text can have must come up often enough.
void group_damaged() {
    Group group("damaged answers");
    unsigned long seen[13] = {0};
    unsigned long made_in_all = 0;
    for (unsigned round = 0; round < 3000; round++) {
        const unsigned n = unsigned(1 + random_numbers.below(4));
        const std::size_t most = round % 50 == 0 ? 8 : 4;
        const unsigned r = unsigned(random_numbers.below(most));
        const Request q = any_request(n, r, unsigned(random_numbers.below(8)));
        const Made made = make_answer(q, random_numbers.below(3) * 10);
        for (unsigned copy = 0; copy < 40; copy++) {
            std::string text = made.text;
            const std::size_t damages = 1 + random_numbers.below(3);
            for (std::size_t k = 0; k < damages; k++) damage(text);
            const second::Reading reading = check_same(group, q, text);
            if (reading.refusal >= 0 && reading.refusal <= 12) seen[reading.refusal]++;
            made_in_all++;
        }
    }
    group.check(made_in_all >= 100000, "damaged answers", "fewer than 100000");
    std::printf("%lu damaged answers:", made_in_all);
    for (int number : {0, 9, 10, 11, 12}) {
        group.check(seen[number] >= 100, "refusal " + std::to_string(number), "fewer than 100");
        std::printf(" %lu with %d%s", seen[number], number, number == 12 ? "\n" : ",");
    }
    group.finish();
}

// ---------------------------------------------------------------------------
// Long answers
// ---------------------------------------------------------------------------

// Variables that may be named again: W, Z and S, those after the last L.
std::string again(const Request& q) {
    unsigned V = 0, C = 0, T = 0;
    second::counts(q, V, C, T);
    const std::size_t first = std::size_t(second::last_X_or_L(q)) + 1;
    const std::size_t x = first + random_numbers.below(V - first + 1);
    return (random_numbers.below(2) == 0 ? "-" : "") + std::to_string(x);
}

// An answer of about so many bytes: many numbers on a line, few, or long c
// lines between.
std::string long_answer(const Request& q, std::size_t bytes, std::size_t kind) {
    Made made;
    make_network(q, made);
    std::vector<int> all = make_values(q, made, 0);
    shuffle(all);
    std::string text = s + "v";
    for (int number : all) {
        // what is left of the length is shared out between the numbers
        const std::size_t stop = text.size() + bytes / (all.size() + 1);
        while (text.size() < stop) {
            text += " " + again(q);
            if (kind == 1 && random_numbers.below(3) == 0) text += "\nv";
            if (kind == 2 && random_numbers.below(200) == 0) {
                text += "\nc" + std::string(random_numbers.below(5000), 'v') + "\nv";
            }
            if (text.back() == 'v') text += " " + again(q);
        }
        text += " " + std::to_string(number);
    }
    return text + " 0\n";
}

// Answers of megabytes, as they are, with a bad variable before the 0 at their
// far end, and with one byte damaged.
void group_long() {
    Group group("long answers");
    std::size_t texts = 0, bytes = 0;
    const std::size_t sizes[] = {500000, 1000000, 2000000, 8000000};
    for (std::size_t round = 0; round < 12; round++) {
        const unsigned n = unsigned(1 + random_numbers.below(4));
        const unsigned r = unsigned(random_numbers.below(8));
        // at least one row has variables, which may be named again
        Request q = any_request(n, r, unsigned(1 + random_numbers.below(7)));
        q.free &= ~1u;
        const std::string text = long_answer(q, sizes[round / 3], round % 3);
        const second::Reading reading = check_same(group, q, text);
        group.check(reading.refusal == 0, numbers_of(q), "second: refused");
        unsigned V = 0, C = 0, T = 0;
        second::counts(q, V, C, T);
        for (unsigned bad : {V + 1, 1u}) {
            std::string other = text;
            other.insert(other.size() - 3, " " + std::to_string(bad));
            check_number(group, q, other, 10);
        }
        const unsigned copies = text.size() > 4000000 ? 1 : 6;
        for (unsigned copy = 0; copy < copies; copy++) {
            std::string other = text;
            other[random_numbers.below(other.size())] = any_byte();
            check_same(group, q, other);
        }
        texts += 3 + copies;
        bytes += (3 + copies) * text.size();
    }
    group.finish();
    std::printf("%zu long answers with %zu bytes together\n", texts, bytes);
}

// ---------------------------------------------------------------------------
// One file
// ---------------------------------------------------------------------------

// Prints the library's number for the text of a file, and nothing else.
int read_file(char** words) {
    std::string text;
    if (!read_text(words[2], text)) {
        std::fprintf(stderr, "answer_test: %s cannot be read\n", words[2]);
        return 2;
    }
    const Request q = request_of(words + 3);
    std::printf("%lu\n", static_cast<unsigned long>(call_answer(q, text)));
    return 0;
}

void run_all() {
    group_p8();
    group_c_lines();
    group_other_lines();
    group_v_lines();
    group_numbers();
    group_variables();
    group_missing();
    group_no_network();
    group_refused_requests();
    group_free_rows();
    groups_of_networks();
    group_damaged();
    group_long();
}

}  // namespace

int main(int count, char** words) {
    if (count == 7 && std::string(words[1]) == "--read") return read_file(words);
    if (count != 1) {
        std::fprintf(stderr, "usage: answer_test [--read FILE n table r m]\n");
        return 2;
    }
    run_all();
    return counts();
}
