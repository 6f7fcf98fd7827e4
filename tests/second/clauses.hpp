// A second implementation of the clause file, for tests only.
//
// It was written from documents 01 and 02 alone, without a look at the proved
// code, by plain nested loops. Each part names, in quotes, the sentence of a
// document that it follows. Where one can be read in two ways,
// docs/DECISIONS.md has the reading that is followed.
#pragma once

#include <cstddef>
#include <string>
#include <vector>

namespace second {

// "A request is one line: n, the table, r, M". "Inside, [the table] is a
// 16-bit number whose bit k is row k." "The request holds a second 16-bit
// number, for free rows." It comes last here, so that a request without free
// rows is written as before.
struct Request {
    unsigned n;
    unsigned table;
    unsigned r;
    unsigned m;
    unsigned free = 0;
};

using Clause = std::vector<int>;

// ---------------------------------------------------------------------------
// Refusals
// ---------------------------------------------------------------------------

// "Each later operation tests its request again as numbers, 2 to 5 in order;
// a table bit at or above 2^n is 3." The answer is 0 for a good request.
inline int refusal(const Request& q) {
    // "n is 1 to 4 inputs"
    if (q.n < 1 || q.n > 4) return 2;
    // "a table bit at or above 2^n is 3", and "3 covers both numbers"
    const unsigned rows = 1u << q.n;
    if ((q.table >> rows) != 0) return 3;
    if ((q.free >> rows) != 0) return 3;
    // "24 when both bits of a row are set in a request passed as numbers, after
    // 3": before 4 and 5
    for (unsigned row = 0; row < rows; row++) {
        if (((q.table >> row) & 1) == 1 && ((q.free >> row) & 1) == 1) return 24;
    }
    // "r is 0 to 7 switches"
    if (q.r > 7) return 4;
    // "M is 0 to 7"
    if (q.m > 7) return 5;
    return 0;
}

// A digit is a byte 0 to 9.
inline bool is_digit(char c) { return c >= '0' && c <= '9'; }

// "Refusal 1 lets "-" stand in the table".
inline bool is_digit_or_dash(char c) { return is_digit(c) || c == '-'; }

// Takes a non-empty run of characters that `may_stand` allows, followed by
// `end`. The place moves past `end`. False when the text has another form here.
inline bool take_run(const std::string& text, std::size_t& place, bool (*may_stand)(char),
                     char end, std::string& run) {
    run.clear();
    while (place < text.size() && may_stand(text[place])) {
        run += text[place];
        place = place + 1;
    }
    if (run.empty() || place == text.size() || text[place] != end) return false;
    place = place + 1;
    return true;
}

// "each one character": a run of one digit, from `low` to `high`.
inline bool one_character(const std::string& run, char low, char high) {
    return run.size() == 1 && run[0] >= low && run[0] <= high;
}

// "The table has 2^n characters 0 or 1, row 0 first." Bit k is row k, so the
// first character is bit 0. "The table takes "-" for a free row". A character
// sets one bit at most, so 24 does not come from a line.
inline bool table_of(const std::string& run, unsigned n, unsigned& table, unsigned& free) {
    const std::size_t rows = std::size_t(1) << n;
    if (run.size() != rows) return false;
    table = 0;
    free = 0;
    for (std::size_t row = 0; row < rows; row++) {
        switch (run[row]) {
            case '0': break;
            case '1': table |= 1u << row; break;
            case '-': free |= 1u << row; break;
            default: return false;
        }
    }
    return true;
}

// "Reading a request: 1 if not four non-empty runs of digits in the line
// form; 2 bad n; 3 bad table; 4 bad r; 5 bad M." The answer is 0 for a good
// request. On a refusal `out` stands.
inline int read_request(const std::string& text, Request& out) {
    // "single spaces between, newline (byte 10) last"; nothing comes after
    // the newline. The form of the whole line comes first.
    std::string n, table, r, m;
    std::size_t place = 0;
    const bool form = take_run(text, place, is_digit, ' ', n) &&
                      take_run(text, place, is_digit_or_dash, ' ', table) &&
                      take_run(text, place, is_digit, ' ', r) &&
                      take_run(text, place, is_digit, '\n', m) && place == text.size();
    if (!form) return 1;

    // "2 bad n; 3 bad table; 4 bad r; 5 bad M"
    Request q = {0, 0, 0, 0};
    if (!one_character(n, '1', '4')) return 2;
    q.n = unsigned(n[0] - '0');
    if (!table_of(table, q.n, q.table, q.free)) return 3;
    if (!one_character(r, '0', '7')) return 4;
    q.r = unsigned(r[0] - '0');
    if (!one_character(m, '0', '7')) return 5;
    q.m = unsigned(m[0] - '0');
    out = q;
    return 0;
}

// ---------------------------------------------------------------------------
// Rows and literals. From here on the request is a good one.
// ---------------------------------------------------------------------------

// What a row is: "on" when its bit of the table is 1, free when its bit of the
// second number is, else off.
enum class Row { off, on, free };

inline Row row_of(const Request& q, unsigned row) {
    if (((q.table >> row) & 1) == 1) return Row::on;
    if (((q.free >> row) & 1) == 1) return Row::free;
    return Row::off;
}

inline bool is_on(const Request& q, unsigned row) { return row_of(q, row) == Row::on; }

// How many rows are of a kind. "The number of on rows is the count of ones in
// the table."
inline unsigned rows_of(const Request& q, Row kind) {
    unsigned count = 0;
    for (unsigned row = 0; row < (1u << q.n); row++) {
        if (row_of(q, row) == kind) count = count + 1;
    }
    return count;
}

// "Input 0 is the highest bit of a row number: with four inputs row 6 is
// (0,1,1,0)."
inline bool input_is_one(unsigned n, unsigned input, unsigned row) {
    return ((row >> (n - 1 - input)) & 1) == 1;
}

// "Literal v below n is input v, literal n+v its complement."
inline bool literal_is_one(unsigned n, unsigned v, unsigned row) {
    if (v < n) return input_is_one(n, v, row);
    return !input_is_one(n, v - n, row);
}

// ---------------------------------------------------------------------------
// Terminals and variables
// ---------------------------------------------------------------------------

// "There are N = 2r+2 terminals."
inline int terminals(const Request& q) { return int(2 * q.r + 2); }

// "0 is the source, 2r+1 the sink."
inline int sink(const Request& q) { return int(2 * q.r + 1); }

// "Switch s has ends 2s+1 and 2s+2; e' is the other end of e's switch."
inline int first_end(int s) { return 2 * s + 1; }
inline int second_end(int s) { return 2 * s + 2; }
inline int switch_of(int e) { return (e - 1) / 2; }
inline int other_end(int e) {
    const int s = switch_of(e);
    return e == first_end(s) ? second_end(s) : first_end(s);
}

// "X(i,j), i<j, pairs in order of i then j: i·(2N−i−1)/2 + j−i. X(j,i) is the
// same."
inline int X(const Request& q, int i, int j) {
    const int low = i < j ? i : j;
    const int high = i < j ? j : i;
    return low * (2 * terminals(q) - low - 1) / 2 + high - low;
}

// "P = N(N−1)/2."
inline int P(const Request& q) { return terminals(q) * (terminals(q) - 1) / 2; }

// "L(s,v) = P + 2n·s + v + 1."
inline int L(const Request& q, int s, int v) { return P(q) + 2 * int(q.n) * s + v + 1; }

// "With B variables before it, an on row has, for steps t = 1..M,
// W(t,e) = B+(t−1)(2r+1)+e for e = 1..2r"
inline int W(const Request& q, int B, int t, int e) { return B + (t - 1) * int(2 * q.r + 1) + e; }

// "and Z(t) = B+(t−1)(2r+1)+2r+1."
inline int Z(const Request& q, int B, int t) {
    return B + (t - 1) * int(2 * q.r + 1) + int(2 * q.r + 1);
}

// "An off row has S(i) = B+i+1, its side of the separation."
inline int S(int B, int i) { return B + i + 1; }

// How many variables a row has: the W and Z of its steps, its S, or none: "a
// free row, which gets no variables or clauses".
inline int variables_of_row(const Request& q, unsigned row) {
    switch (row_of(q, row)) {
        case Row::on: return int(q.m) * int(2 * q.r + 1);
        case Row::off: return terminals(q);
        case Row::free: return 0;
    }
    return 0;
}

// ---------------------------------------------------------------------------
// "V is the number of variables, C of clauses, T of literals in all clauses."
// ---------------------------------------------------------------------------

// Counted by formulas and not from the clauses below, so that a test can hold
// one against the other.
inline void counts(const Request& q, unsigned& V, unsigned& C, unsigned& T) {
    const unsigned n = q.n, r = q.r, M = q.m;
    const unsigned N = 2 * r + 2;
    const unsigned pairs = N * (N - 1) / 2;
    const unsigned triples = N * (N - 1) * (N - 2) / 6;
    const unsigned on = rows_of(q, Row::on);
    const unsigned off = (1u << n) - on - rows_of(q, Row::free);

    // Group 1: three clauses of three literals for each i<j<k.
    // Group 2: for each switch one clause of 2n literals, and one of two
    // literals for each of the n(2n−1) pairs v<w.
    C = 3 * triples + r * (1 + n * (2 * n - 1));
    T = 9 * triples + r * (2 * n + 2 * n * (2 * n - 1));

    // Group 3, on row. Of the 2n literals n are 0 on the row.
    // For each e there are 2r−1 clauses with g and one with Z: 2r.
    unsigned on_clauses = 1, on_literals = 1;
    if (M > 0) {
        const unsigned steps = M;                        // 2r+1 literals each
        const unsigned literals = M * 2 * r * n;         // two literals each
        const unsigned starts = 2 * r + 1;               // two literals each
        const unsigned links = (M - 1) * (2 * r) * (2 * r);  // three literals each
        const unsigned ends = 2 * r;                     // two literals each
        on_clauses = steps + literals + starts + links + ends;
        on_literals = steps * (2 * r + 1) + 2 * literals + 2 * starts + 3 * links + 2 * ends;
    }

    // Group 3, off row: two single literals, then clauses of three literals.
    const unsigned off_clauses = 2 + 2 * pairs + 2 * r * n;
    const unsigned off_literals = 2 + 3 * (2 * pairs + 2 * r * n);

    V = pairs + 2 * n * r + on * M * (2 * r + 1) + off * N;
    C = C + on * on_clauses + off * off_clauses;
    T = T + on * on_literals + off * off_literals;
}

// ---------------------------------------------------------------------------
// "Clauses, in order"
// ---------------------------------------------------------------------------

// "1. For i<j<k: (−X(i,j) −X(j,k) X(i,k)), (−X(i,j) −X(i,k) X(j,k)),
// (−X(i,k) −X(j,k) X(i,j))."
inline void group_1(const Request& q, std::vector<Clause>& all) {
    const int N = terminals(q);
    for (int i = 0; i < N; i++) {
        for (int j = i + 1; j < N; j++) {
            for (int k = j + 1; k < N; k++) {
                all.push_back({-X(q, i, j), -X(q, j, k), X(q, i, k)});
                all.push_back({-X(q, i, j), -X(q, i, k), X(q, j, k)});
                all.push_back({-X(q, i, k), -X(q, j, k), X(q, i, j)});
            }
        }
    }
}

// "2. For each s: all L(s,v) in one clause; then (−L(s,v) −L(s,w)) for v<w."
inline void group_2(const Request& q, std::vector<Clause>& all) {
    const int literals = int(2 * q.n);
    for (int s = 0; s < int(q.r); s++) {
        Clause some;
        for (int v = 0; v < literals; v++) some.push_back(L(q, s, v));
        all.push_back(some);
        for (int v = 0; v < literals; v++) {
            for (int w = v + 1; w < literals; w++) all.push_back({-L(q, s, v), -L(q, s, w)});
        }
    }
}

// "Otherwise for each t: W(t,1)..W(t,2r) Z(t)."
inline void on_row_steps(const Request& q, int B, std::vector<Clause>& all) {
    const int M = int(q.m), ends = int(2 * q.r);
    for (int t = 1; t <= M; t++) {
        Clause step;
        for (int e = 1; e <= ends; e++) step.push_back(W(q, B, t, e));
        step.push_back(Z(q, B, t));
        all.push_back(step);
    }
}

// "Then for each t, e, and each v that is 0 on the row: (−W(t,e) −L(s,v)), s
// the switch of e." The loops nest in this order.
inline void on_row_closed(const Request& q, unsigned row, int B, std::vector<Clause>& all) {
    const int M = int(q.m), ends = int(2 * q.r);
    for (int t = 1; t <= M; t++) {
        for (int e = 1; e <= ends; e++) {
            for (int v = 0; v < int(2 * q.n); v++) {
                if (literal_is_one(q.n, unsigned(v), row)) continue;
                all.push_back({-W(q, B, t, e), -L(q, switch_of(e), v)});
            }
        }
    }
}

// "Then for each e: (−W(1,e) X(0,e)); then (−Z(1) X(0,2r+1))."
inline void on_row_start(const Request& q, int B, std::vector<Clause>& all) {
    const int ends = int(2 * q.r);
    for (int e = 1; e <= ends; e++) all.push_back({-W(q, B, 1, e), X(q, 0, e)});
    all.push_back({-Z(q, B, 1), X(q, 0, sink(q))});
}

// "Then for t<M, for each e: for g = 1..2r except e' (−W(t,e) −W(t+1,g)
// X(e',g)), then (−W(t,e) −Z(t+1) X(e',2r+1))." The clause with Z comes once
// for each e, after that e's g.
inline void on_row_links(const Request& q, int B, std::vector<Clause>& all) {
    const int M = int(q.m), ends = int(2 * q.r);
    for (int t = 1; t < M; t++) {
        for (int e = 1; e <= ends; e++) {
            const int o = other_end(e);
            for (int g = 1; g <= ends; g++) {
                if (g == o) continue;
                all.push_back({-W(q, B, t, e), -W(q, B, t + 1, g), X(q, o, g)});
            }
            all.push_back({-W(q, B, t, e), -Z(q, B, t + 1), X(q, o, sink(q))});
        }
    }
}

// "Then for each e: (−W(M,e) X(e',2r+1))."
inline void on_row_end(const Request& q, int B, std::vector<Clause>& all) {
    const int M = int(q.m), ends = int(2 * q.r);
    for (int e = 1; e <= ends; e++) {
        all.push_back({-W(q, B, M, e), X(q, other_end(e), sink(q))});
    }
}

// "On row, M = 0: (X(0,2r+1)). Otherwise ..."
inline void on_row(const Request& q, unsigned row, int B, std::vector<Clause>& all) {
    if (q.m == 0) {
        all.push_back({X(q, 0, sink(q))});
        return;
    }
    on_row_steps(q, B, all);
    on_row_closed(q, row, B, all);
    on_row_start(q, B, all);
    on_row_links(q, B, all);
    on_row_end(q, B, all);
}

// "Off row: (−S(0)); (S(2r+1)); for i<j (−X(i,j) −S(i) S(j)),
// (−X(i,j) S(i) −S(j)); for each s with ends a, b and v that is 1 on the row
// (−L(s,v) −S(a) S(b)), (−L(s,v) S(a) −S(b))."
inline void off_row(const Request& q, unsigned row, int B, std::vector<Clause>& all) {
    const int N = terminals(q);
    all.push_back({-S(B, 0)});
    all.push_back({S(B, sink(q))});
    for (int i = 0; i < N; i++) {
        for (int j = i + 1; j < N; j++) {
            all.push_back({-X(q, i, j), -S(B, i), S(B, j)});
            all.push_back({-X(q, i, j), S(B, i), -S(B, j)});
        }
    }
    for (int s = 0; s < int(q.r); s++) {
        const int a = first_end(s), b = second_end(s);
        for (int v = 0; v < int(2 * q.n); v++) {
            if (!literal_is_one(q.n, unsigned(v), row)) continue;
            all.push_back({-L(q, s, v), -S(B, a), S(B, b)});
            all.push_back({-L(q, s, v), S(B, a), -S(B, b)});
        }
    }
}

// "3. Rows rising." B is the number of variables of X, of L and of all lower
// rows, on and off: "Then rows rising. With B variables before
// it ...". A free row has no clauses.
inline void group_3(const Request& q, std::vector<Clause>& all) {
    int B = P(q) + int(2 * q.n * q.r);
    for (unsigned row = 0; row < (1u << q.n); row++) {
        if (row_of(q, row) == Row::on) on_row(q, row, B, all);
        if (row_of(q, row) == Row::off) off_row(q, row, B, all);
        B = B + variables_of_row(q, row);
    }
}

// All clauses of a good request, in order.
inline std::vector<Clause> clauses(const Request& q) {
    std::vector<Clause> all;
    group_1(q, all);
    group_2(q, all);
    group_3(q, all);
    return all;
}

// ---------------------------------------------------------------------------
// The file
// ---------------------------------------------------------------------------

// A number in decimal, without a leading zero, "-" before a negative one.
inline void put_number(std::string& text, int number) {
    if (number < 0) {
        text += '-';
        number = -number;
    }
    if (number >= 10) put_number(text, number / 10);
    text += char('0' + number % 10);
}

// "The file is "p cnf V C", then a line per clause, " 0" last." Each line ends
// with byte 10, the last too.
inline std::string file(const Request& q) {
    unsigned V = 0, C = 0, T = 0;
    counts(q, V, C, T);
    std::string text = "p cnf ";
    put_number(text, int(V));
    text += ' ';
    put_number(text, int(C));
    text += '\n';
    for (const Clause& clause : clauses(q)) {
        for (int literal : clause) {
            put_number(text, literal);
            text += ' ';
        }
        text += "0\n";
    }
    return text;
}

}  // namespace second
