// Reading the clause file and the proof.
//
// A proof is a list of steps, each of which adds or deletes a clause. It may
// come in several files, one after the other, each in the binary or the text
// form. A binary file has a byte 0 after each step and a text has none at all,
// so the first byte 0 tells them apart; a binary file without one is cut off
// within its first step, whose letter "a" no text has.
//
// A clause that is added while it stands already is not added again: its
// copies are counted, and it is deleted with the last of them. The deletion of
// a clause that isn't there changes nothing.
//
// The ids of a solver that numbers its clauses one by one go on from the clause
// file's last: each addition of the proof has the next one, a copy and the empty
// clause too. They can be kept; a copy then goes by the id of the first.
#ifndef NORDKELCH_LRAT_PROOF_HPP
#define NORDKELCH_LRAT_PROOF_HPP

#include <algorithm>
#include <cstdint>
#include <string>
#include <string_view>
#include <unordered_map>
#include <vector>

#include "clauses.hpp"
#include "files.hpp"

namespace lrat {

// One step of a proof.
struct Step {
    std::uint32_t clause : 31;
    bool deletion : 1;

    Step(std::uint32_t c, bool is_deletion) : clause(c & 0x7fffffff), deletion(is_deletion) {}
};
static_assert(sizeof(Step) == 4);

// The words of a text, one after another. Lines that start with c are passed
// over.
class Words {
  public:
    explicit Words(std::string_view text) : text_(text) {}

    bool next(std::string_view& word) {
        for (;;) {
            while (at_ < text_.size() && is_space(text_[at_])) at_++;
            if (at_ == text_.size()) return false;
            if (text_[at_] != 'c' || (at_ > 0 && text_[at_ - 1] != '\n')) break;
            while (at_ < text_.size() && text_[at_] != '\n') at_++;
        }
        const std::size_t start = at_;
        while (at_ < text_.size() && !is_space(text_[at_])) at_++;
        word = text_.substr(start, at_ - start);
        return true;
    }

  private:
    static bool is_space(char c) { return c == ' ' || c == '\n' || c == '\t' || c == '\r'; }

    std::string_view text_;
    std::size_t at_ = 0;
};

// A decimal number of at most nine digits.
inline std::int64_t to_number(std::string_view word) {
    std::int64_t value = 0;
    const bool negative = !word.empty() && word[0] == '-';
    const std::string_view digits = word.substr(negative ? 1 : 0);
    bool right = !digits.empty() && digits.size() <= 9;
    for (char c : digits) {
        right = right && c >= '0' && c <= '9';
        value = 10 * value + (c - '0');
    }
    if (!right) stop("not a number: " + std::string(word.substr(0, 40)));
    return negative ? -value : value;
}

// A literal as it is written; 0 for 0, which ends a clause.
inline Literal to_literal(std::string_view word) {
    const std::int64_t value = to_number(word);
    return value >= 0 ? Literal(2 * value) : Literal(-2 * value + 1);
}

// The literals in rising order, each once.
inline void bring_in_order(std::vector<Literal>& literals) {
    std::sort(literals.begin(), literals.end());
    literals.erase(std::unique(literals.begin(), literals.end()), literals.end());
}

// Their variables have to be in range; the literals are in rising order.
inline void check_range(const std::vector<Literal>& literals, std::uint32_t last_variable) {
    // a refutation names no other variables either
    if (!literals.empty() && variable(literals.back()) > last_variable) {
        stop("a variable above the clause file's last: " + std::to_string(number(literals.back())));
    }
}

// The clause file.
inline Formula read_formula(std::string_view text) {
    Words words(text);
    std::string_view word;
    for (const char* expected : {"p", "cnf"}) {
        if (!words.next(word) || word != expected)
            stop("the clause file has no line \"p cnf V C\"");
    }
    std::int64_t counts[2] = {-1, -1};
    for (std::int64_t& count : counts) {
        if (words.next(word)) count = to_number(word);
        if (count < 0) stop("the clause file has no line \"p cnf V C\"");
    }
    Formula formula;
    formula.last_variable = std::uint32_t(counts[0]);
    std::vector<Literal> literals;
    while (words.next(word)) {
        const Literal literal = to_literal(word);
        if (literal != 0) {
            literals.push_back(literal);
            continue;
        }
        bring_in_order(literals);
        check_range(literals, formula.last_variable);
        formula.clauses.add(literals.data(), literals.data() + literals.size());
        literals.clear();
    }
    if (!literals.empty() || formula.clauses.count() != counts[1])
        stop("the clause file has another number of clauses");
    return formula;
}

// The clauses that stand at a step, to find the one that a deletion means: a
// table of chains by a number that is made of the literals. The clauses'
// literals have to stay in rising order.
class Standing {
  public:
    explicit Standing(Clauses& clauses) : clauses_(clauses), heads_(1 << 16, none) {}

    // The clause of these literals that stands, or none.
    std::uint32_t find(const std::vector<Literal>& literals) {
        return *link_to(literals.data(), literals.data() + literals.size());
    }

    void insert(std::uint32_t c) {
        if (c >= next_.size()) next_.resize(std::size_t(c) + 1, none);
        if (++count_ > heads_.size()) grow();
        link(c);
    }

    void erase(std::uint32_t c) {
        *link_to(clauses_.begin(c), clauses_.end(c)) = next_[c];
        count_--;
    }

  private:
    void link(std::uint32_t c) {
        std::uint32_t& head = heads_[place(clauses_.begin(c), clauses_.end(c))];
        next_[c] = head;
        head = c;
    }

    void grow() {
        std::vector<std::uint32_t> old(2 * heads_.size(), none);
        old.swap(heads_);
        for (std::uint32_t head : old) {
            for (std::uint32_t c = head; c != none;) {
                const std::uint32_t after = next_[c];
                link(c);
                c = after;
            }
        }
    }

    // What names the clause of these literals in its chain, or the chain's end.
    std::uint32_t* link_to(const Literal* first, const Literal* last) {
        std::uint32_t* at = &heads_[place(first, last)];
        while (*at != none && !std::equal(first, last, clauses_.begin(*at), clauses_.end(*at)))
            at = &next_[*at];
        return at;
    }

    std::size_t place(const Literal* first, const Literal* last) const {
        std::uint64_t sum = std::uint64_t(last - first);
        for (; first != last; first++) {
            sum = (sum ^ *first) * 0x9E3779B97F4A7C15u;
            sum ^= sum >> 29;
        }
        return std::size_t(sum) & (heads_.size() - 1);
    }

    Clauses& clauses_;
    std::vector<std::uint32_t> heads_;  // as many as a power of 2
    std::vector<std::uint32_t> next_;
    std::size_t count_ = 0;
};

// The greatest id that document 01 lets a line have.
constexpr std::uint32_t greatest_id = 999999999;

// Reads the proof into the clauses and the steps.
class ProofReader {
  public:
    // Where a list is given for the ids, it gets those of the clauses added.
    ProofReader(Clauses& clauses, std::vector<Step>& steps, std::vector<std::uint32_t>* ids)
        : clauses_(clauses),
          steps_(steps),
          standing_(clauses),
          ids_(ids),
          last_id_(clauses.count()) {
        for (std::uint32_t c = 0; c < clauses.count(); c++) {
            literals_.assign(clauses.begin(c), clauses.end(c));
            stand(c);
        }
    }

    static bool is_binary(std::string_view proof) { return proof.find('\0') != proof.npos; }

    // At least as many as the proof has literals: each ends with a byte below
    // 128 in the binary form, and before a space in the text.
    static std::size_t most_literals(std::string_view proof) {
        if (is_binary(proof))
            return std::size_t(
                std::count_if(proof.begin(), proof.end(), [](char c) { return !(c & 0x80); }));
        return std::size_t(
            std::count_if(proof.begin(), proof.end(), [](char c) { return c <= ' '; }));
    }

    void read(std::string_view proof) {
        if (is_binary(proof)) {
            read_binary(proof);
        } else {
            read_text(proof);
        }
    }

    // After the last file: the ids get one more, for the empty clause, which is
    // the next clause to be added. It is the proof's own, or, where the proof
    // has no empty clause, the next.
    void finish() {
        if (ids_ != nullptr) ids_->push_back(empty_id_ != 0 ? empty_id_ : next_id());
    }

  private:
    void read_text(std::string_view proof) {
        Words words(proof);
        std::string_view word;
        literals_.clear();
        bool deletion = false;
        bool complete = true;
        while (words.next(word)) {
            if (word == "d" && complete) {
                deletion = true;
                complete = false;
                continue;
            }
            complete = false;
            const Literal literal = to_literal(word);
            if (literal != 0) {
                literals_.push_back(literal);
                continue;
            }
            take(deletion);
            deletion = false;
            complete = true;
        }
        if (!complete) stop("the proof ends within a step");
    }

    // "a" or "d", then each literal in groups of seven bits, the lowest first,
    // with the high bit set on all but the last; then a byte 0.
    void read_binary(std::string_view proof) {
        std::size_t at = 0;
        literals_.clear();
        while (at < proof.size()) {
            const char letter = proof[at++];
            if (letter != 'a' && letter != 'd')
                stop("the binary proof has a step that is neither a nor d");
            for (;;) {
                std::uint64_t literal = 0;
                for (unsigned shift = 0;; shift += 7) {
                    if (at == proof.size() || shift > 28)
                        stop("the binary proof ends within a step");
                    const auto byte = std::uint8_t(proof[at++]);
                    literal |= std::uint64_t(byte & 127) << shift;
                    if (byte < 128) break;
                }
                if (literal == 0) break;
                if (literal < 2 || literal > 1999999999)
                    stop("the binary proof has a literal out of range");
                literals_.push_back(Literal(literal));
            }
            take(letter == 'd');
        }
    }

    // A step with the literals read, which are forgotten.
    void take(bool deletion) {
        bring_in_order(literals_);
        if (!deletion) check_range(literals_, clauses_.last_variable());
        const std::uint32_t found = standing_.find(literals_);
        if (!deletion) {
            if (ids_ != nullptr) take_id(found == none);
            const std::uint32_t c =
                found != none ? found
                              : clauses_.add(literals_.data(), literals_.data() + literals_.size());
            if (found == none) steps_.push_back(Step(c, false));
            stand(c, found);
        } else if (found != none) {
            const auto more = copies_.find(found);
            if (more == copies_.end()) {
                standing_.erase(found);
                steps_.push_back(Step(found, true));
            } else if (--more->second == 0) {
                copies_.erase(more);
            }
        }
        literals_.clear();
    }

    // The id of an addition of the literals read; only a new clause needs it.
    void take_id(bool is_new) {
        const std::uint32_t id = next_id();
        if (is_new) ids_->push_back(id);
        if (literals_.empty() && empty_id_ == 0) empty_id_ = id;
    }

    std::uint32_t next_id() {
        if (last_id_ >= greatest_id)
            stop("an id would be above " + std::to_string(greatest_id) +
                 ": the proof adds too many clauses");
        return ++last_id_;
    }

    void stand(std::uint32_t c) { stand(c, standing_.find(literals_)); }

    // A clause stands, or a copy more of the one found.
    void stand(std::uint32_t c, std::uint32_t found) {
        if (found == none) {
            standing_.insert(c);
        } else {
            copies_[found]++;
        }
    }

    Clauses& clauses_;
    std::vector<Step>& steps_;
    Standing standing_;
    std::unordered_map<std::uint32_t, std::uint32_t> copies_;  // besides the first, where any
    std::vector<Literal> literals_;
    std::vector<std::uint32_t>* ids_;  // null where they are not kept
    std::uint32_t last_id_;
    std::uint32_t empty_id_ = 0;  // of the first empty clause; 0 for none so far
};

}  // namespace lrat

#endif
