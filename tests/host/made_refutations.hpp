// Refutations for the comparison of checks: a small solver that writes down
// what it learns, gaps put between the ids, and ways to damage what it wrote.
#pragma once

#include <algorithm>
#include <cstddef>
#include <cstdint>
#include <string>
#include <utility>
#include <vector>

#include "../second/refutations.hpp"
#include "checks.hpp"
#include "gapped.hpp"

namespace {

using Numbers = std::vector<std::int64_t>;

// ---------------------------------------------------------------------------
// Lines as numbers
// ---------------------------------------------------------------------------

// "id literals 0 hints 0" or "id d ids 0". The numbers may be bad ones.
struct MadeLine {
    bool deletes;
    std::int64_t id;
    Numbers literals;
    Numbers ids;  // the hints of an addition, the ids of a deletion
};

using MadeLines = std::vector<MadeLine>;

std::string text_of(const MadeLine& line) {
    std::string text = std::to_string(line.id);
    if (line.deletes) text += " d";
    for (std::int64_t literal : line.literals) text += " " + std::to_string(literal);
    if (!line.deletes) text += " 0";
    for (std::int64_t id : line.ids) text += " " + std::to_string(id);
    return text + " 0\n";
}

std::string text_of(const MadeLines& lines) {
    std::string text;
    for (const MadeLine& line : lines) text += text_of(line);
    return text;
}

// The lines of a text, as far as their form is good.
MadeLines made_lines_of(const std::string& text) {
    MadeLines all;
    for (const second::Line& line_text : second::lines_of(text)) {
        second::RefutationLine line;
        if (!second::refutation_line_of(line_text, line)) break;
        all.push_back({line.deletes, line.id, Numbers(line.literals.begin(), line.literals.end()),
                       Numbers(line.ids.begin(), line.ids.end())});
    }
    return all;
}

// The lines with gaps between the ids of their added clauses.
MadeLines with_gaps(const MadeLines& lines, std::uint32_t C, Gaps gaps, std::uint64_t seed) {
    return made_lines_of(gapped(text_of(lines), C, gaps, seed));
}

// How many lines add a clause that isn't empty.
std::size_t additions_in(const MadeLines& lines) {
    std::size_t additions = 0;
    for (const MadeLine& line : lines) {
        if (!line.deletes && !line.literals.empty()) additions++;
    }
    return additions;
}

// ---------------------------------------------------------------------------
// A small solver
// ---------------------------------------------------------------------------

// It sets variables as decisions, follows the clauses with one unset literal,
// and at each conflict learns the clause that forbids the decisions. The
// clauses that it followed, in order, are the hints.
class Solver {
  public:
    Solver(const Request& q, Random& random, std::size_t most_lines)
        : random_(random), most_lines_(most_lines), clauses_(second::clauses(q)) {
        unsigned T = 0;
        second::counts(q, V_, C_, T);
        standing_.assign(clauses_.size(), true);
        for (int x = 1; x <= int(V_); x++) order_.push_back(x);
        // Few swaps leave most of the order, many leave none of it.
        const std::size_t swaps = random_.below(2) == 0 ? random_.below(4) : V_;
        for (std::size_t k = 0; k < swaps; k++) {
            std::swap(order_[random_.below(V_)], order_[random_.below(V_)]);
        }
    }

    // Learns up to so many clauses, not the empty one, from random decisions.
    void wander(std::size_t rounds) {
        for (; rounds > 0; rounds--) {
            const int first = int(1 + random_.below(V_));
            decisions_.assign(1, random_.below(2) == 0 ? first : -first);
            std::size_t conflict = follow();
            while (conflict == none && next_unset() != 0) {
                const int x = any_unset();
                decisions_.push_back(random_.below(2) == 0 ? x : -x);
                conflict = follow();
            }
            if (conflict != none) learn(conflict, false);
        }
        decisions_.clear();
    }

    // True when the empty clause is learned. False when all clauses can be made
    // true, or when there are too many lines; the lines so far are right.
    bool run() { return refute(); }

    MadeLines lines;

  private:
    static constexpr std::size_t none = std::size_t(-1);

    // A literal that was set true, and the clause that asked for it.
    struct Forced {
        int literal;
        std::size_t clause;
    };

    static std::size_t variable_of(int literal) {
        return std::size_t(literal > 0 ? literal : -literal);
    }

    bool refute() {
        while (!finished_) {
            if (lines.size() >= most_lines_) return false;
            const std::size_t conflict = follow();
            if (conflict != none) {
                learn(conflict, true);
                return true;
            }
            const int x = next_unset();
            if (x == 0) return false;
            decisions_.push_back(random_.below(2) == 0 ? x : -x);
            const bool refuted = refute();
            decisions_.pop_back();
            if (!refuted) return false;
        }
        return true;
    }

    int next_unset() const {
        for (int x : order_) {
            if (values_[std::size_t(x)] == 0) return x;
        }
        return 0;
    }

    // One that is unset, where there is one.
    int any_unset() {
        std::size_t x = 0;
        while (x == 0 || values_[x] != 0) x = 1 + random_.below(V_);
        return int(x);
    }

    // The unset literal of a clause whose other literals are false, or 0.
    // `conflict` is set when all are false.
    int forced_literal(const second::Clause& clause, bool& conflict) const {
        int unset = 0;
        conflict = false;
        for (int literal : clause) {
            const int value = second::value_of_literal(values_, literal);
            if (value == 1 || (value == 0 && unset != 0)) return 0;
            if (value == 0) unset = literal;
        }
        conflict = unset == 0;
        return unset;
    }

    // Sets the decisions and all that follows. The answer is the clause of
    // the conflict, if there is one.
    std::size_t follow() {
        values_.assign(std::size_t(V_) + 1, 0);
        forced_.clear();
        for (int literal : decisions_) second::make_true(values_, literal);
        std::size_t quiet = 0, k = random_.below(clauses_.size());
        while (quiet < clauses_.size()) {
            k = k + 1 < clauses_.size() ? k + 1 : 0;
            quiet++;
            if (!standing_[k]) continue;
            bool conflict = false;
            const int literal = forced_literal(clauses_[k], conflict);
            if (conflict) return k;
            if (literal == 0) continue;
            second::make_true(values_, literal);
            forced_.push_back({literal, k});
            quiet = 0;
        }
        return none;
    }

    // The hints that led to the conflict, and the variables in their clauses.
    // Those that are needed before are kept too.
    Numbers hints_to(std::size_t conflict, std::vector<bool>& needed) const {
        Numbers hints = {std::int64_t(conflict) + 1};
        for (int literal : clauses_[conflict]) needed[variable_of(literal)] = true;
        for (std::size_t i = forced_.size(); i-- > 0;) {
            if (!needed[variable_of(forced_[i].literal)]) continue;
            hints.push_back(std::int64_t(forced_[i].clause) + 1);
            for (int literal : clauses_[forced_[i].clause]) needed[variable_of(literal)] = true;
        }
        std::reverse(hints.begin(), hints.end());
        return hints;
    }

    // Writes the line of a conflict. In two of three lines only the hints and
    // the decisions that led to it are kept, unless none of the decisions did
    // and the clause may not be empty.
    void learn(std::size_t conflict, bool may_be_empty) {
        std::vector<bool> needed(std::size_t(V_) + 1, random_.below(3) == 0);
        Numbers hints = hints_to(conflict, needed);
        second::Clause clause;
        for (int literal : decisions_) {
            if (needed[variable_of(literal)]) clause.push_back(-literal);
        }
        if (clause.empty() && !may_be_empty) clause.push_back(-decisions_[0]);
        if (random_.below(2) == 0) std::reverse(clause.begin(), clause.end());
        lines.push_back({false, std::int64_t(clauses_.size()) + 1,
                         Numbers(clause.begin(), clause.end()), hints});
        finished_ = clause.empty();
        if (finished_) return;
        clauses_.push_back(clause);
        standing_.push_back(true);
        if (random_.below(3) == 0) drop();
    }

    // Deletes learned clauses that the last one makes needless, and names some
    // original ones.
    void drop() {
        const second::Clause& last = clauses_.back();
        Numbers ids;
        for (std::size_t k = C_; k + 1 < clauses_.size(); k++) {
            if (!standing_[k] || !contains(clauses_[k], last)) continue;
            ids.push_back(std::int64_t(k) + 1);
            standing_[k] = false;
        }
        if (random_.below(3) == 0) ids.push_back(std::int64_t(1 + random_.below(C_)));
        const Numbers free_ids = {std::int64_t(clauses_.size()), 0, 1, 999999999};
        lines.push_back({true, free_ids[random_.below(free_ids.size())], {}, ids});
    }

    static bool contains(const second::Clause& large, const second::Clause& small) {
        for (int literal : small) {
            if (std::find(large.begin(), large.end(), literal) == large.end()) return false;
        }
        return true;
    }

    Random& random_;
    std::size_t most_lines_;
    unsigned V_ = 0;
    unsigned C_ = 0;
    std::vector<second::Clause> clauses_;  // the clause of id k+1 is clauses_[k]
    std::vector<bool> standing_;
    std::vector<int> order_;
    std::vector<int> decisions_;
    second::Values values_;
    std::vector<Forced> forced_;
    bool finished_ = false;
};

// ---------------------------------------------------------------------------
// Damaged lines
// ---------------------------------------------------------------------------

// Damages to the numbers of a refutation. The form of its lines stays good,
// but for negative ids and for a 0 before the end.
class LineDamage {
  public:
    LineDamage(const Request& q, Random& random, MadeLines& lines)
        : random_(random), lines_(lines) {
        unsigned T = 0;
        second::counts(q, V_, C_, T);
    }

    // One damage. It may be one that changes nothing.
    void damage() {
        if (lines_.empty()) return;
        switch (random_.below(8)) {
            case 0:
            case 1:
            case 2: damage_hints(any_addition()); break;
            case 3:
            case 4: damage_literals(any_addition()); break;
            case 5: damage_id(any_line()); break;
            case 6: damage_order(); break;
            default: insert_deletion(); break;
        }
    }

  private:
    std::int64_t below(std::size_t count) { return std::int64_t(random_.below(count)); }

    // A line, an addition if one is found soon.
    MadeLine& any_addition() {
        for (unsigned round = 0; round < 10; round++) {
            MadeLine& line = any_line();
            if (!line.deletes) return line;
        }
        return lines_.back();
    }

    std::int64_t any_id() {
        if (random_.below(30) == 0) return 999999999;
        if (random_.below(2) == 0) return beside(any_line().id);
        return 1 + below(C_ + additions_in(lines_) + 3);
    }

    MadeLine& any_line() { return lines_[random_.below(lines_.size())]; }

    // The id, the number before it or the number after it.
    std::int64_t beside(std::int64_t id) { return std::max<std::int64_t>(id + below(3) - 1, 0); }

    std::int64_t any_literal() {
        const std::int64_t x = 1 + below(V_);
        return random_.below(2) == 0 ? x : -x;
    }

    static void insert(Numbers& all, std::size_t place, std::int64_t number) {
        all.insert(all.begin() + std::ptrdiff_t(place), number);
    }

    static void erase(Numbers& all, std::size_t place) {
        all.erase(all.begin() + std::ptrdiff_t(place));
    }

    void damage_hints(MadeLine& line) {
        Numbers& ids = line.ids;
        if (ids.empty()) {
            ids.push_back(any_id());
            return;
        }
        const std::size_t a = random_.below(ids.size()), b = random_.below(ids.size());
        switch (random_.below(13)) {
            case 0: erase(ids, a); break;
            case 1: std::swap(ids[a], ids[b]); break;
            case 2: insert(ids, std::max(a, b) + 1, ids[std::min(a, b)]); break;
            case 3: ids[a] = any_id(); break;
            case 4: insert(ids, a, any_id()); break;
            case 5: insert(ids, a, line.id); break;
            case 6: ids.push_back(any_id()); break;
            case 7: ids.clear(); break;
            case 8: ids.pop_back(); break;
            case 9: std::reverse(ids.begin(), ids.end()); break;
            case 10: ids[a]++; break;
            case 11: ids[a]--; break;
            default:
                if (random_.below(4) == 0) ids[a] = -ids[a];
                break;
        }
    }

    void damage_literals(MadeLine& line) {
        Numbers& literals = line.literals;
        const std::int64_t outside = std::int64_t(V_) + 1;
        if (line.deletes) return;
        if (literals.empty()) {
            literals.push_back(random_.below(4) == 0 ? outside : any_literal());
            return;
        }
        const std::size_t a = random_.below(literals.size()), b = random_.below(literals.size());
        switch (random_.below(12)) {
            case 0: insert(literals, a, literals[b]); break;
            case 1: insert(literals, a, -literals[b]); break;
            case 2: literals[a] = outside; break;
            case 3: literals[a] = -outside; break;
            case 4: insert(literals, a, random_.below(2) == 0 ? 999999999 : -999999999); break;
            case 5: erase(literals, a); break;
            case 6: literals[a] = -literals[a]; break;
            case 7: insert(literals, a, any_literal()); break;
            case 8: literals[a]++; break;
            case 9: literals[a]--; break;
            case 10: literals[a] = any_literal(); break;
            default: std::swap(literals[a], literals[b]); break;
        }
    }

    void damage_id(MadeLine& line) {
        switch (random_.below(10)) {
            case 0: line.id++; break;
            case 1: line.id--; break;
            case 2: line.id = 0; break;
            case 3: line.id = 999999999; break;
            case 4: line.id = 1 + below(C_); break;
            case 5: line.id = any_id(); break;
            case 6: line.id = any_line().id; break;
            case 7:
            case 8: raise_ids(line.id, 1 + below(random_.below(2) == 0 ? 3 : 1000)); break;
            default:
                if (random_.below(4) == 0) line.id = -line.id;
                break;
        }
    }

    // Makes each id from this one on so much larger, in all lines.
    void raise_ids(std::int64_t from, std::int64_t more) {
        for (MadeLine& line : lines_) {
            if (line.id >= from) line.id += more;
            for (std::int64_t& id : line.ids) {
                if (id >= from) id += more;
            }
        }
    }

    void damage_order() {
        const std::size_t a = random_.below(lines_.size()), b = random_.below(lines_.size());
        switch (random_.below(6)) {
            case 0: lines_.erase(lines_.begin() + std::ptrdiff_t(a)); break;
            case 1: lines_.insert(lines_.begin() + std::ptrdiff_t(b), MadeLine(lines_[a])); break;
            case 2: std::swap(lines_[a], lines_[b]); break;
            case 3: lines_.pop_back(); break;
            default: repeat_addition(std::min(a, b), std::max(a, b)); break;
        }
    }

    // Puts a copy of an addition behind another line, with the number after the
    // last id there, and makes larger the ids from this number on. Two clauses are
    // then equal.
    void repeat_addition(std::size_t from, std::size_t behind) {
        MadeLine copy = lines_[from];
        if (copy.deletes || copy.literals.empty()) return;
        std::int64_t id = std::int64_t(C_) + 1;
        for (std::size_t i = 0; i <= behind; i++) {
            if (!lines_[i].deletes && !lines_[i].literals.empty()) id = lines_[i].id + 1;
        }
        raise_ids(id, 1);
        copy.id = id;
        lines_.insert(lines_.begin() + std::ptrdiff_t(behind) + 1, copy);
    }

    // A deletion before any line: of a hint of that line, of one or more added
    // clauses, of one of them twice, of original clauses, or of nothing.
    void insert_deletion() {
        const std::size_t place = random_.below(lines_.size());
        const MadeLine next = lines_[place];
        Numbers added;
        for (std::size_t i = 0; i < place; i++) {
            if (!lines_[i].deletes) added.push_back(lines_[i].id);
        }
        Numbers ids;
        const std::size_t kind = random_.below(7);
        if (kind == 0 && !next.ids.empty()) ids.push_back(next.ids[random_.below(next.ids.size())]);
        if (kind == 1 && !added.empty()) ids.push_back(added[random_.below(added.size())]);
        if (kind == 2 && !added.empty()) ids.assign(2, added[random_.below(added.size())]);
        if (kind == 3) ids = added;
        if (kind == 4) ids = {1 + below(C_), 1 + below(C_), 1 + below(C_)};
        if (kind == 5) ids = {1 + below(C_), any_id(), any_id()};
        const MadeLine line = {true, random_.below(3) == 0 ? any_id() : next.id, {}, ids};
        lines_.insert(lines_.begin() + std::ptrdiff_t(place), line);
    }

    Random& random_;
    MadeLines& lines_;
    unsigned V_ = 0;
    unsigned C_ = 0;
};

// ---------------------------------------------------------------------------
// Damaged texts
// ---------------------------------------------------------------------------

// A place where a word starts: behind a space or a newline, or the first.
std::size_t any_word(const std::string& text, Random& random) {
    const std::size_t place = text.find_last_of(" \n", random.below(text.size()));
    return place == std::string::npos ? 0 : place + 1;
}

std::size_t word_end(const std::string& text, std::size_t start) {
    const std::size_t end = text.find_first_of(" \n", start);
    return end == std::string::npos ? text.size() : end;
}

char any_byte_of_refutation(Random& random) {
    const std::string set = "0123456789  -\nd\r\t+cx/:";
    if (random.below(20) == 0) return char(random.below(256));
    return set[random.below(set.size())];
}

// A number as it may not be written: a leading zero, ten digits and more, a
// sign, other bytes. Some are the right number when the sum wraps around.
std::string badly_written(const std::string& word, Random& random) {
    const std::size_t digits = word.size() < 10 ? 10 - word.size() : 1;
    const bool number = !word.empty() && word.size() < 10 &&
                        std::all_of(word.begin(), word.end(), second::is_digit);
    switch (random.below(9)) {
        case 0: return "0" + word;
        case 1: return std::string(digits, '0') + word;
        case 2: return word + std::string(digits, '0');
        case 3: return "-" + word;
        case 4: return "+" + word;
        case 5: return "-0";
        case 6: return number ? std::to_string(std::stoull(word) + (1ull << 32)) : word + "d";
        case 7: return "d";
        default: return number ? std::to_string(std::stoull(word) + 10000000000ull) : word + "x";
    }
}

void damage_word(std::string& text, Random& random) {
    const std::size_t start = any_word(text, random), end = word_end(text, start);
    const std::string word = text.substr(start, end - start);
    const std::size_t other = any_word(text, random);
    const std::string other_word = text.substr(other, word_end(text, other) - other);
    switch (random.below(6)) {
        case 0: text.insert(start, " "); break;
        case 1: text.insert(start, other_word + " "); break;
        case 2: text.replace(start, end - start, other_word); break;
        case 3: text.erase(start, std::min(end + 1, text.size()) - start); break;
        default: text.replace(start, end - start, badly_written(word, random)); break;
    }
}

// What stands before or after the newline of a line.
void damage_line_end(std::string& text, Random& random) {
    const std::size_t place = text.find('\n', random.below(text.size()));
    if (place == std::string::npos) return;
    const char* lines[] = {"\n", "c\n", "0 d 0\n", "1 d 1 0\n", "1 0 1 0\n", " "};
    switch (random.below(6)) {
        case 0: text.insert(place, "\r"); break;
        case 1: text.insert(place, " "); break;
        case 2: text.insert(place, " 0"); break;
        case 3: text.erase(place, 1); break;
        case 4: text[place] = ' '; break;
        default: text.insert(place + 1, lines[random.below(6)]); break;
    }
}

void damage_text(std::string& text, Random& random) {
    if (text.empty()) {
        text += any_byte_of_refutation(random);
        return;
    }
    const std::size_t a = random.below(text.size()), b = random.below(text.size());
    switch (random.below(12)) {
        case 0: text[a] = any_byte_of_refutation(random); break;
        case 1: text.erase(a, 1); break;
        case 2: text.insert(a, 1, any_byte_of_refutation(random)); break;
        case 3: std::swap(text[a], text[b]); break;
        case 4: text.resize(a); break;
        case 5: text.resize(text.size() - 1); break;
        case 6: text += any_byte_of_refutation(random); break;
        case 7: damage_line_end(text, random); break;
        default: damage_word(text, random); break;
    }
}

}  // namespace
