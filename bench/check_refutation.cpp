// Checking refutations: the proved library beside a plain C++ check with the same memory rules, in one run, on the same texts and
// slices. Both times include making the clauses of the request and storing them. Best of 7 each, of 4 for texts above 4 MB.
//
//   check_refutation FILE n table r m ...      real refutations, five words for each
//   check_refutation --long FILE n table r m   texts from 10 kB to 16 MB made from one, by tests/host/long_refutation.hpp
//   check_refutation --short-lines             a text of 60,000 lines of two literals each, at the largest number of variables
//   check_refutation --gaps FILE n table r m ...   refutations whose ids follow one another, each as it is and with its ids made ones
//                                              with gaps, by tests/host/gapped.hpp
//   check_refutation --checks FILE n table r m COUNT   has the library check a text COUNT times: to count instructions by callgrind,
//                                              as the difference between COUNT 1 and 0
//
// Prints for each text its bytes and lines, both times, nanoseconds for each byte, and the ratio of the times. For the long texts,
// each about four times as long as the one before, also the growth: nanoseconds for each byte over those of the text before. For
// texts with gaps also both times over those of the text without them; all forms of a text are timed in turn.
#include <cstdint>
#include <cstdio>
#include <cstdlib>
#include <string>
#include <vector>

#include "nordkelch.h"
#include "../tests/second/clauses.hpp"
#include "entries.hpp"
#include "files.hpp"
#include "gapped.hpp"
#include "long_refutation.hpp"
#include "plain_clauses.hpp"
#include "plain_refutation.hpp"
#include "timing.hpp"

using second::Request;

namespace {

bool all_same = true;

// The clauses of a request, put into lent slices.
struct Store {
    std::int32_t* literals;
    std::uint32_t* pairs;
    std::uint32_t place = 0, start = 0;

    Store(std::int32_t* literals_, std::uint32_t* pairs_) : literals(literals_), pairs(pairs_) {}
    void counts(int, int) {}
    void literal(int x) { literals[place++] = x; }
    void end() {
        *pairs++ = start;
        *pairs++ = place - start;
        start = place;
    }
};

struct Slices {
    std::vector<std::int32_t> literals;
    std::vector<std::uint32_t> pairs, added;
    std::vector<std::uint8_t> values;

    Slices(const Request& q, std::size_t lines) {
        unsigned V = 0, C = 0, T = 0;
        second::counts(q, V, C, T);
        literals.resize(T);
        pairs.resize(2 * C);
        added.resize(3 * lines);
        values.resize(V + 1);
    }
};

struct Outcome {
    std::uint32_t number;
    std::uint32_t count;
};

Outcome plain_check(const Request& q, const std::string& text, Slices& slices) {
    plain::Clauses<Store> clauses(int(q.n), int(q.table), int(q.free), int(q.r), int(q.m),
                                  Store(slices.literals.data(), slices.pairs.data()));
    clauses.all();
    plain::Check check(bytes_of(text), text.size(), slices.literals.data(), slices.pairs.data(),
                       std::uint32_t(slices.pairs.size() / 2), std::uint32_t(clauses.variables()), slices.added.data(),
                       slices.added.size(), slices.values.data());
    const int number = check.run();
    return {std::uint32_t(number), check.count()};
}

Outcome proved_check(const Request& q, const std::string& text, Slices& slices) {
    Outcome outcome = {0, 0};
    outcome.number = ask(nk_check_refutation, q, bytes_of(text), text.size(), slices.literals.data(), slices.literals.size(),
                         slices.pairs.data(), slices.pairs.size(), slices.added.data(), slices.added.size(), slices.values.data(),
                         slices.values.size(), &outcome.count);
    return outcome;
}

// Milliseconds of both, and what they answered.
struct Times {
    double plain = 1e9;
    double proved = 1e9;
    Outcome plain_outcome = {0, 0};
    Outcome proved_outcome = {0, 0};

    // One turn: each time is the best so far.
    void turn(const Request& q, const std::string& text, Slices& slices) {
        plain = std::min(plain, milliseconds([&] { plain_outcome = plain_check(q, text, slices); }));
        proved = std::min(proved, milliseconds([&] { proved_outcome = proved_check(q, text, slices); }));
    }
};

bool same(const Outcome& a, const Outcome& b) { return a.number == b.number && a.count == b.count; }

// Prints the start of a text's row.
void print(const std::string& name, const std::string& text, const Times& best) {
    std::printf("%-31s %9zu %7zu %9.3f %9.3f %6.2f %6.2f %6.2f", name.c_str(), text.size(), lines_in(text), best.plain, best.proved,
                nanoseconds_a_byte(best.plain, text.size()), nanoseconds_a_byte(best.proved, text.size()),
                best.proved / best.plain);
    const Outcome &plain = best.plain_outcome, &proved = best.proved_outcome;
    if (same(plain, proved)) return;
    std::printf("  they differ: plain %u %u, proved %u %u", plain.number, plain.count, proved.number, proved.count);
    all_same = false;
}

// Times both on one text and prints the start of its row.
Times compare(const std::string& name, const Request& q, const std::string& text) {
    Slices slices(q, lines_in(text));
    Times best;
    for (int turn = turns_for(text.size()); turn > 0; turn--) best.turn(q, text, slices);
    print(name, text, best);
    return best;
}

std::string name_of(char** words) {
    return std::string(words[0]) + " " + words[1] + " " + words[2] + " " + words[3];
}

void head(const char* last) {
    std::printf("%-31s %9s %7s %9s %9s %6s %6s\n", "", "", "", "C++", "proved", "C++", "proved");
    std::printf("%-31s %9s %7s %9s %9s %6s %6s %6s%s\n", "request", "bytes", "lines", "ms", "ms", "ns/B", "ns/B", "ratio", last);
}

void real_texts(int count, char** words) {
    std::printf("real refutations\n");
    head("");
    for (; count >= 5; count -= 5, words += 5) {
        compare(name_of(words + 1), request_of(words + 1), text_of_file(words[0]));
        std::printf("\n");
    }
}

// One text as it is and with gaps of each kind. The outcome is the same for all.
void with_gaps(const std::string& name, const Request& q, const std::string& text) {
    unsigned V = 0, C = 0, T = 0;
    second::counts(q, V, C, T);
    std::vector<std::string> texts = {text};
    for (const Gaps gaps : all_gaps) texts.push_back(gapped(text, C, gaps));
    std::vector<Times> best(texts.size());
    Slices slices(q, lines_in(text));
    for (int turn = 3 * turns_for(text.size()); turn > 0; turn--) {
        for (std::size_t i = 0; i < texts.size(); i++) best[i].turn(q, texts[i], slices);
    }
    for (std::size_t i = 0; i < texts.size(); i++) {
        print(i == 0 ? name : std::string("  gaps: ") + gaps_name(all_gaps[i - 1]), texts[i], best[i]);
        if (i > 0) std::printf("  %6.2f %6.2f", best[i].plain / best[0].plain, best[i].proved / best[0].proved);
        if (!same(best[i].plain_outcome, best[0].plain_outcome)) {
            std::printf("  another answer than without gaps");
            all_same = false;
        }
        std::printf("\n");
    }
}

void texts_with_gaps(int count, char** words) {
    std::printf("refutations with gaps between their ids\n");
    head("  over those without gaps C++, proved");
    for (; count >= 5; count -= 5, words += 5) {
        with_gaps(name_of(words + 1), request_of(words + 1), text_of_file(words[0]));
    }
}

void long_texts(char** words) {
    const Request q = request_of(words + 1);
    const LongRefutation source(q, text_of_file(words[0]));
    for (const auto hints : {LongRefutation::Hints::near, LongRefutation::Hints::far}) {
        std::printf("made from the refutation of %s, hints to %s\n", name_of(words + 1).c_str(),
                    hints == LongRefutation::Hints::near ? "clauses of the same copy" : "clauses of any copy");
        head("  growth C++, proved");
        double plain_before = 0, proved_before = 0;
        for (std::size_t size = 10000; size < 60000000; size *= 4) {
            const std::string made = source.text(std::min<std::size_t>(size, 16777215), hints);
            const Times times = compare(name_of(words + 1), q, made);
            const double plain = nanoseconds_a_byte(times.plain, made.size());
            const double proved = nanoseconds_a_byte(times.proved, made.size());
            if (plain_before > 0) std::printf("  %6.2f %6.2f", plain / plain_before, proved / proved_before);
            std::printf("\n");
            plain_before = plain;
            proved_before = proved;
        }
    }
}

// Lines (-W(1,e) X(0,e)) for the ends e of the first row, each by the hint of the clause that it copies.
void short_lines() {
    const Request q = {4, 65535, 7, 7};
    const auto formula = second::clauses(q);
    const std::uint32_t count = std::uint32_t(formula.size());
    std::vector<std::uint32_t> numbers;
    for (std::uint32_t k = 0; k < count && numbers.size() < 14; k++)
        if (formula[k].size() == 2 && formula[k][0] < 0 && formula[k][1] > 0) numbers.push_back(k + 1);
    std::string text;
    for (std::uint32_t i = 0; i < 60000; i++) {
        const std::uint32_t number = numbers[i % numbers.size()];
        const auto& clause = formula[number - 1];
        text += std::to_string(count + i + 1) + " " + std::to_string(clause[0]) + " " + std::to_string(clause[1]) + " 0 " +
                std::to_string(number) + " 0\n";
    }
    std::printf("lines of two literals\n");
    head("");
    compare("4 1111111111111111 7 7", q, text);
    std::printf("\n");
}

// Checks a text so often.
void checks(char** words) {
    const Request q = request_of(words + 1);
    const std::string text = text_of_file(words[0]);
    Slices slices(q, lines_in(text));
    for (int i = std::atoi(words[5]); i > 0; i--) all_same = proved_check(q, text, slices).number == 0 && all_same;
}

} // namespace

int main(int count, char** words) {
    const std::string mode = count > 1 ? words[1] : "";
    if (mode == "--long" && count == 7) {
        long_texts(words + 2);
    } else if (mode == "--gaps") {
        texts_with_gaps(count - 2, words + 2);
    } else if (mode == "--checks" && count == 8) {
        checks(words + 2);
    } else if (mode == "--short-lines") {
        short_lines();
    } else {
        real_texts(count - 1, words + 1);
    }
    return all_same ? 0 : 1;
}
