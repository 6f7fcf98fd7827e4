// A second implementation of checking a refutation, for tests only.
//
// It was written from documents 01 and 02 alone, without a look at the proved
// code: a line is first taken apart into numbers, and the rules are then applied
// to these, one after another. Each part names, in quotes, the sentence of
// document 01 that it follows, or of document 02, of its change U4. Where a
// document can be read in two ways, docs/DECISIONS.md has the reading that is
// followed.
#pragma once

#include <cstddef>
#include <cstdint>
#include <string>
#include <unordered_map>
#include <vector>

#include "answers.hpp"
#include "clauses.hpp"

namespace second {

// The slices that a check works in. "The clause store is two slices: 32-bit
// signed literals, and pairs of offset and length in entries". Added clauses
// have "a slice of their own"; of it document 02: "Each added clause's record
// becomes id, offset, length, three entries." The last is "the byte slice of
// values".
struct Slices {
    std::vector<std::int32_t> literals;
    std::vector<std::uint32_t> pairs;
    std::vector<std::uint32_t> added;
    std::vector<std::uint8_t> values;
};

// What a check gives: the refusal's number, 0 for "none"; the number a of
// records; and what it leaves in the slices.
struct Outcome {
    int number;
    std::uint32_t count;
    Slices slices;
};

// ---------------------------------------------------------------------------
// The form of a line
// ---------------------------------------------------------------------------

// "Lines are "id literals 0 hints 0" or "id d ids 0"". The first literal's
// first byte is at `first`, the last literal's last byte before `end`, both
// counted from the line's first byte.
struct RefutationLine {
    bool deletes = false;
    int id = 0;
    std::vector<int> literals;
    std::vector<int> ids;  // the hints of an addition, the ids of a deletion
    std::size_t first = 0;
    std::size_t end = 0;
};

// The words from `place` on are ids and then a 0 that is the line's last word.
// "16 bad form, [...] a negative hint or id included".
inline bool ids_of_words(const std::vector<std::string>& words, std::size_t place,
                         std::vector<int>& ids) {
    for (; place < words.size(); place++) {
        int number = 0;
        if (!number_of(words[place], number) || number < 0) return false;
        if (number == 0) return place + 1 == words.size();
        ids.push_back(number);
    }
    return false;
}

// The words from the second on are literals and then a 0. The place moves past
// the 0.
inline bool literals_of_words(const std::vector<std::string>& words, std::size_t& place,
                              RefutationLine& line) {
    std::size_t byte = words[0].size() + 1;
    for (place = 1; place < words.size(); place++) {
        int number = 0;
        if (!number_of(words[place], number)) return false;
        if (number == 0) {
            place = place + 1;
            return true;
        }
        if (line.literals.empty()) line.first = byte;
        line.literals.push_back(number);
        line.end = byte + words[place].size();
        byte = byte + words[place].size() + 1;
    }
    return false;
}

// False is "16 bad form, an unfinished line [...] included". The whole line is
// looked at, and nothing but its form.
inline bool refutation_line_of(const Line& text, RefutationLine& line) {
    if (!text.finished) return false;
    const std::vector<std::string> words = words_of(text.text);
    if (!number_of(words[0], line.id) || line.id < 0) return false;
    line.deletes = words.size() > 1 && words[1] == "d";
    if (line.deletes) return ids_of_words(words, 2, line.ids);
    std::size_t place = 0;
    return literals_of_words(words, place, line) && ids_of_words(words, place, line.ids);
}

// ---------------------------------------------------------------------------
// The state between lines
// ---------------------------------------------------------------------------

// A clause that was added. Its record is the one of the same number, from 0.
struct Addition {
    int id;
    Clause clause;
    bool deleted;
};

struct RefutationState {
    unsigned V = 0;
    unsigned C = 0;
    std::vector<Clause> originals;  // the clause of id k+1 is originals[k]
    std::vector<Addition> additions;
    std::unordered_map<int, std::size_t> addition_of;  // an id's place in additions
    Slices slices;
};

// Whether this is the id of one of the clauses 1 to C.
inline bool is_original(const RefutationState& state, int id) {
    return id >= 1 && unsigned(id) <= state.C;
}

// The literals of the clause with this id, or nothing "if its clause doesn't
// stand". "original clauses stay standing"; an added clause stands from its own
// line to its deletion. No clause has a number that was left out between two
// ids.
inline const Clause* standing_clause(const RefutationState& state, int id) {
    if (is_original(state, id)) return &state.originals[std::size_t(id) - 1];
    const auto found = state.addition_of.find(id);
    if (found == state.addition_of.end()) return nullptr;
    const Addition& addition = state.additions[found->second];
    return addition.deleted ? nullptr : &addition.clause;
}

// ---------------------------------------------------------------------------
// An addition
// ---------------------------------------------------------------------------

// The value of variable x is values[x]: 1 for true, -1 for false, 0 for unset.
using Values = std::vector<int>;

inline int value_of_literal(const Values& values, int literal) {
    return literal > 0 ? values[std::size_t(literal)] : -values[std::size_t(-literal)];
}

inline void make_true(Values& values, int literal) {
    values[std::size_t(literal > 0 ? literal : -literal)] = literal > 0 ? 1 : -1;
}

// "18 literal outside ±V or variable twice"
inline bool literals_are_good(const std::vector<int>& literals, unsigned V) {
    std::vector<bool> named(std::size_t(V) + 1, false);
    for (int literal : literals) {
        const unsigned variable = unsigned(literal > 0 ? literal : -literal);
        if (variable > V || named[variable]) return false;
        named[variable] = true;
    }
    return true;
}

// The answer is 0 at the conflict, else 19, 20 or 21. "A hint: 19 if its
// clause doesn't stand; all literals false is the conflict, later hints are
// unread; one unset and the rest false sets it true; else 20." "21 hints spent
// without conflict".
inline int follow_hints(const RefutationState& state, const std::vector<int>& hints,
                        Values& values) {
    for (int hint : hints) {
        const Clause* clause = standing_clause(state, hint);
        if (clause == nullptr) return 19;
        std::size_t false_ones = 0, unset_ones = 0;
        int unset = 0;
        for (int literal : *clause) {
            const int value = value_of_literal(values, literal);
            if (value == -1) false_ones++;
            if (value == 0) {
                unset_ones++;
                unset = literal;
            }
        }
        if (false_ones == clause->size()) return 0;
        if (unset_ones != 1 || false_ones + 1 != clause->size()) return 20;
        make_true(values, unset);
    }
    return 21;
}

// "An added id need only be above C and every earlier one." The last of these,
// deleted or not, is the largest, since it was above those before it. The ids of
// d lines are free, and are none of these.
inline bool id_is_good(const RefutationState& state, int id) {
    if (unsigned(id) <= state.C) return false;
    return state.additions.empty() || id > state.additions.back().id;
}

// One addition, whose line starts at byte `start` of the text. The answer is
// 17 to 22, or 0 when it is accepted. The empty clause gets no record.
inline int add_clause(RefutationState& state, const RefutationLine& line, std::size_t start) {
    // "17 is now for an id not above C and the last"
    if (!id_is_good(state, line.id)) return 17;
    if (!literals_are_good(line.literals, state.V)) return 18;
    // "22 no place for the pair of a non-empty clause; then hints". In place of
    // the pair there is a record of "three entries".
    const std::size_t a = state.additions.size();
    if (!line.literals.empty() && state.slices.added.size() < 3 * a + 3) return 22;
    // "The line's literals are set false."
    Values values(std::size_t(state.V) + 1, 0);
    for (int literal : line.literals) make_true(values, -literal);
    const int number = follow_hints(state, line.ids, values);
    if (number != 0 || line.literals.empty()) return number;
    // "id, offset, length", "counted in bytes of the refutation's text from the
    // first literal's first byte to the last literal's last"
    state.slices.added[3 * a] = std::uint32_t(line.id);
    state.slices.added[3 * a + 1] = std::uint32_t(start + line.first);
    state.slices.added[3 * a + 2] = std::uint32_t(line.end - line.first);
    state.additions.push_back({line.id, line.literals, false});
    state.addition_of[line.id] = a;
    return 0;
}

// ---------------------------------------------------------------------------
// A deletion
// ---------------------------------------------------------------------------

// "Deletion, left to right: 19 if an id doesn't stand; original clauses stay
// standing. Its pair's length becomes 0 and its place isn't used again." That is
// now the length of its record; the record's id and offset stay.
inline int delete_clauses(RefutationState& state, const std::vector<int>& ids) {
    for (int id : ids) {
        if (standing_clause(state, id) == nullptr) return 19;
        if (is_original(state, id)) continue;
        const std::size_t k = state.addition_of[id];
        state.additions[k].deleted = true;
        state.slices.added[3 * k + 2] = 0;
    }
    return 0;
}

// ---------------------------------------------------------------------------
// The whole check
// ---------------------------------------------------------------------------

// "The store is then filled." The clauses lie one after another from entry 0.
inline void fill_store(const std::vector<Clause>& all, Slices& slices) {
    std::size_t place = 0, pair = 0;
    for (const Clause& clause : all) {
        slices.pairs[pair] = std::uint32_t(place);
        slices.pairs[pair + 1] = std::uint32_t(clause.size());
        pair = pair + 2;
        for (int literal : clause) {
            slices.literals[place] = literal;
            place = place + 1;
        }
    }
}

// The lines of the text. The answer is 0 for "none", else 16 to 23.
inline int check_lines(RefutationState& state, const std::string& text) {
    std::size_t start = 0;
    for (const Line& line_text : lines_of(text)) {
        RefutationLine line;
        if (!refutation_line_of(line_text, line)) return 16;
        const int number =
            line.deletes ? delete_clauses(state, line.ids) : add_clause(state, line, start);
        if (number != 0) return number;
        // "The empty clause ends the check with "none"; text after it is
        // unread."
        if (!line.deletes && line.literals.empty()) return 0;
        start = start + line_text.text.size() + 1;
    }
    // "23 if text ends first"
    return 23;
}

// "Checking a refutation". A refusal of 2 to 15, or of 24, leaves the slices as
// they are and has the count 0.
inline Outcome check_refutation(const Request& q, const std::string& text, const Slices& lent) {
    // "Each later operation tests its request again as numbers"
    const int refused = refusal(q);
    if (refused != 0) return {refused, 0, lent};
    RefutationState state;
    unsigned T = 0;
    counts(q, state.V, state.C, T);
    // "7 if the literal slice is shorter than T; 8 if the pair slice is
    // shorter than 2C"
    if (lent.literals.size() < T) return {7, 0, lent};
    if (lent.pairs.size() < 2 * std::size_t(state.C)) return {8, 0, lent};
    // "14 if the byte slice of values is shorter than V+1; 15 for text above
    // 16,777,215 bytes"
    if (lent.values.size() < std::size_t(state.V) + 1) return {14, 0, lent};
    if (text.size() > 16777215) return {15, 0, lent};

    state.slices = lent;
    state.originals = clauses(q);
    fill_store(state.originals, state.slices);
    // "After every check that got past 15 the first V+1 values are 0." The
    // values that the lines work with are kept elsewhere.
    for (std::size_t x = 0; x <= state.V; x++) state.slices.values[x] = 0;
    const int number = check_lines(state, text);
    return {number, std::uint32_t(state.additions.size()), state.slices};
}

// ---------------------------------------------------------------------------
// An added clause
// ---------------------------------------------------------------------------

// A part of the refutation's text. The empty part is {0, 0}.
struct Part {
    std::uint64_t offset;
    std::uint64_t length;
};

// "The part handed back is that of the first of the a records, wholly inside the
// slice, with this id; an id at or below C or without a record gives the empty
// part." It is "the part of the refutation's text that its pair names, in bytes",
// by the record's offset and length; "for [...] a length of 0, or a pair outside
// [...] the text", it is the empty part, whatever records come after. The sums are
// of 64 bits and don't wrap.
inline Part added_part(const std::string& text, const std::vector<std::uint32_t>& added,
                       std::uint32_t C, std::uint32_t a, std::uint32_t id) {
    const Part empty = {0, 0};
    if (id <= C) return empty;
    for (std::uint64_t k = 0; k < a && 3 * k + 3 <= added.size(); k++) {
        if (added[3 * k] != id) continue;
        const Part part = {added[3 * k + 1], added[3 * k + 2]};
        if (part.length == 0 || part.offset + part.length > text.size()) return empty;
        return part;
    }
    return empty;
}

}  // namespace second
