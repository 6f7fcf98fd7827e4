// A second implementation of reading an answer, for tests only.
//
// It was written from document 01 alone, without a look at the proved code:
// the text is split into lines, and each line is judged by itself. Each part
// names, in quotes, the sentence of document 01 that it follows. Where the
// document can be read in two ways, docs/DECISIONS.md has the reading that is
// followed.
#pragma once

#include <cstddef>
#include <string>
#include <vector>

#include "clauses.hpp"

namespace second {

// "A network is a literal for each switch and a label for each terminal".
// Both are empty when the reading is refused.
struct Reading {
    int refusal;
    std::vector<unsigned> literals;
    std::vector<unsigned> labels;
};

// ---------------------------------------------------------------------------
// Lines
// ---------------------------------------------------------------------------

// A line without its newline (byte 10). Only the last one may be unfinished:
// it has no newline.
struct Line {
    std::string text;
    bool finished;
};

// "lines from the top". An empty text has no line.
inline std::vector<Line> lines_of(const std::string& text) {
    std::vector<Line> all;
    std::string line;
    for (char c : text) {
        if (c == '\n') {
            all.push_back({line, true});
            line.clear();
        } else {
            line += c;
        }
    }
    if (!line.empty()) all.push_back({line, false});
    return all;
}

// The words of a line: what stands between its spaces. Where two spaces meet,
// or a space is first or last, a word is empty.
inline std::vector<std::string> words_of(const std::string& line) {
    std::vector<std::string> all(1);
    for (char c : line) {
        if (c == ' ') {
            all.push_back("");
        } else {
            all.back() += c;
        }
    }
    return all;
}

// "Numbers in answers and refutations are decimal and have at most nine
// digits, single spaces, no leading zero, no "-0"."
inline bool number_of(const std::string& word, int& number) {
    const bool negative = !word.empty() && word[0] == '-';
    const std::string digits = negative ? word.substr(1) : word;
    if (digits.empty() || digits.size() > 9) return false;
    int value = 0;
    for (char c : digits) {
        if (!is_digit(c)) return false;
        value = 10 * value + (c - '0');
    }
    // "no leading zero"
    if (digits[0] == '0' && digits.size() > 1) return false;
    // "no "-0""
    if (negative && value == 0) return false;
    number = negative ? -value : value;
    return true;
}

// "lines "v " with numbers, at least one on each, the 0 included; 0 ends the
// numbers": a 0 is the last number of its line.
inline bool numbers_of_line(const std::string& line, std::vector<int>& numbers) {
    const std::vector<std::string> words = words_of(line);
    if (words[0] != "v" || words.size() < 2) return false;
    for (std::size_t i = 1; i < words.size(); i++) {
        int number = 0;
        if (!number_of(words[i], number)) return false;
        if (number == 0 && i + 1 < words.size()) return false;
        numbers.push_back(number);
    }
    return true;
}

// ---------------------------------------------------------------------------
// Values
// ---------------------------------------------------------------------------

// What the lines so far have said. The value of variable x is values[x]: 1
// for true, -1 for false, 0 for none yet. Only X and L variables have a place:
// "other variables may be missing", and no more is asked of them.
struct Answer {
    bool s_line = false;
    bool ended = false;
    std::vector<int> values;
};

// The X and L variables are 1 to P + 2n·r: "L(s,v) = P + 2n·s + v + 1".
inline int last_X_or_L(const Request& q) { return P(q) + int(2 * q.n * q.r); }

// "10 for a variable above V, or an X or L variable named twice". The answer
// is 10 or 0.
inline int take_numbers(const Request& q, const std::vector<int>& numbers, Answer& a) {
    unsigned V = 0, C = 0, T = 0;
    counts(q, V, C, T);
    for (int number : numbers) {
        if (number == 0) {
            // "0 ends the numbers"
            a.ended = true;
            continue;
        }
        const int variable = number < 0 ? -number : number;
        if (variable > int(V)) return 10;
        if (variable > last_X_or_L(q)) continue;
        if (a.values[std::size_t(variable)] != 0) return 10;
        a.values[std::size_t(variable)] = number < 0 ? -1 : 1;
    }
    return 0;
}

// One line. The answer is 9, 10, or 0 when the line is taken.
inline int take_line(const Request& q, const Line& line, Answer& a) {
    // "9 for any other line or an unfinished one, tested before the line's
    // variables"
    if (!line.finished) return 9;
    // "Lines starting with c are passed over."
    if (!line.text.empty() && line.text[0] == 'c') return 0;
    // "0 ends the numbers and only c lines follow."
    if (a.ended) return 9;
    // "One "s SATISFIABLE" comes before lines "v " with numbers"
    if (line.text == "s SATISFIABLE") {
        if (a.s_line) return 9;
        a.s_line = true;
        return 0;
    }
    std::vector<int> numbers;
    if (!a.s_line || !numbers_of_line(line.text, numbers)) return 9;
    return take_numbers(q, numbers, a);
}

// "−x is true when x is false."
inline bool literal_is_true(const Answer& a, int literal) {
    if (literal > 0) return a.values[std::size_t(literal)] == 1;
    return a.values[std::size_t(-literal)] == -1;
}

// "at least one literal true"
inline bool clause_is_true(const Answer& a, const Clause& clause) {
    for (int literal : clause) {
        if (literal_is_true(a, literal)) return true;
    }
    return false;
}

// "At the end, 11 if the s line, the 0 or any X or L value is missing"
inline bool something_missing(const Request& q, const Answer& a) {
    if (!a.s_line || !a.ended) return true;
    for (int x = 1; x <= last_X_or_L(q); x++) {
        if (a.values[std::size_t(x)] == 0) return true;
    }
    return false;
}

// "12 if clauses of groups 1 and 2 fail"
inline bool clauses_fail(const Request& q, const Answer& a) {
    std::vector<Clause> first;
    group_1(q, first);
    group_2(q, first);
    for (const Clause& clause : first) {
        if (!clause_is_true(a, clause)) return true;
    }
    return false;
}

// ---------------------------------------------------------------------------
// The network
// ---------------------------------------------------------------------------

// "a label is the lowest terminal of its net": X(j,i) is true when j and i
// are on one net.
inline unsigned label_of(const Request& q, const Answer& a, int i) {
    for (int j = 0; j < i; j++) {
        if (literal_is_true(a, X(q, j, i))) return unsigned(j);
    }
    return unsigned(i);
}

// "a literal for each switch": the v whose L(s,v) is true.
inline unsigned literal_of(const Request& q, const Answer& a, int s) {
    int v = 0;
    while (!literal_is_true(a, L(q, s, v))) v++;
    return unsigned(v);
}

// "Reading an answer". The refusals come in this order: those of the request
// as numbers; 9 and 10 at the first line that has one; 11; 12.
inline Reading read_answer(const Request& q, const std::string& text) {
    const int number = refusal(q);
    if (number != 0) return {number, {}, {}};

    Answer a;
    a.values.assign(std::size_t(last_X_or_L(q)) + 1, 0);
    for (const Line& line : lines_of(text)) {
        const int fault = take_line(q, line, a);
        if (fault != 0) return {fault, {}, {}};
    }
    if (something_missing(q, a)) return {11, {}, {}};
    if (clauses_fail(q, a)) return {12, {}, {}};

    Reading reading = {0, {}, {}};
    for (int s = 0; s < int(q.r); s++) reading.literals.push_back(literal_of(q, a, s));
    for (int i = 0; i < terminals(q); i++) reading.labels.push_back(label_of(q, a, i));
    return reading;
}

}  // namespace second
