// A plain C++ check of a refutation, to time the proved one against: the same formula, the same lent slices, the same rules, the
// clauses that a text adds left in the text. A line is looked at twice, first its form and then what it does, when its numbers can
// be read without tests; the variables that it set are kept in a list and unset afterwards. A record is found by its id: the place that
// it has where no number is left out comes first, or the last place where that is past it; then the places below are halved.
#pragma once

#include <cstddef>
#include <cstdint>
#include <vector>

namespace plain {

class Check {
public:
    Check(const std::uint8_t *text, std::size_t size, const std::int32_t *literals, const std::uint32_t *pairs,
          std::uint32_t clauses, std::uint32_t variables, std::uint32_t *added, std::size_t places, std::uint8_t *values)
        : text_(text), end_(text + size), lines_end_(end_), literals_(literals), pairs_(pairs), clauses_(clauses),
          variables_(variables), added_(added), places_(places), values_(values), last_(clauses) {
        set_.reserve(variables + 1);
        // A line that has its newline is looked at without tests for the text's end; one that has none is a fault in any case.
        while (lines_end_ > text_ && lines_end_[-1] != '\n') --lines_end_;
    }

    // 0 for "none", else the refusal.
    int run() {
        const std::uint8_t *at = text_;
        while (at < lines_end_) {
            const int code = line(at);
            if (code >= 0) return code;
        }
        return at < end_ ? 16 : 23;
    }

    std::uint32_t count() const { return count_; }

private:
    static bool is_digit(std::uint8_t c) { return static_cast<std::uint8_t>(c - '0') < 10; }

    // Moves past a number of at most nine digits; false where none of the form stands there.
    static bool form(const std::uint8_t *&p, bool signs) {
        const bool negative = signs && *p == '-';
        if (negative) ++p;
        const std::uint8_t *const first = p;
        while (is_digit(*p)) ++p;
        if (p == first || p - first > 9) return false;
        return *first != '0' || (p - first == 1 && !negative);
    }

    // The form of numbers with a space before each and a 0 last; `last` is where the one before the 0 ends.
    static bool run_of(const std::uint8_t *&p, bool signs, const std::uint8_t *&last) {
        for (;;) {
            last = p;
            if (*p != ' ') return false;
            const std::uint8_t *const first = ++p;
            if (!form(p, signs)) return false;
            if (*first == '0') return true;
        }
    }

    // Reads digits and moves past them.
    static std::uint32_t read(const std::uint8_t *&p) {
        std::uint32_t value = 0;
        for (; is_digit(*p); ++p) value = value * 10 + static_cast<std::uint32_t>(*p - '0');
        return value;
    }

    // The next of the numbers of a line whose form is good, after its space.
    static std::uint32_t next(const std::uint8_t *&p) { return read(++p); }

    // The record of an added clause that stands, by its id above C; null where there is none. Ids rise from C + 1 or above, so the
    // record with the id C + k is one of the first k.
    std::uint32_t *record(std::uint32_t id) const {
        std::uint32_t high = id - clauses_ < count_ ? id - clauses_ : count_;
        if (high == 0) return nullptr;
        std::uint32_t *found = added_ + 3 * static_cast<std::size_t>(high - 1);
        if (*found != id) {
            std::uint32_t low = 0;
            --high;
            while (low < high) {
                const std::uint32_t middle = low + (high - low) / 2;
                if (added_[3 * static_cast<std::size_t>(middle)] < id)
                    low = middle + 1;
                else
                    high = middle;
            }
            found = added_ + 3 * static_cast<std::size_t>(low);
            if (*found != id) return nullptr;
        }
        return found[2] != 0 ? found : nullptr;
    }

    void assign(std::uint32_t variable, std::uint8_t value) {
        values_[variable] = value;
        set_.push_back(variable);
    }

    // One literal of a hint's clause: false where the clause is neither all false nor a unit.
    bool look(std::uint32_t variable, bool negative, std::uint32_t &unit, bool &unit_negative) const {
        const std::uint8_t value = values_[variable];
        if (value == (negative ? 2 : 1)) return true;
        if (value != 0 || unit != 0) return false;
        unit = variable;
        unit_negative = negative;
        return true;
    }

    // 0 the conflict, 19, 20, or -1 where a literal was set true.
    int hint(std::uint32_t id) {
        std::uint32_t unit = 0;
        bool negative = false;
        if (id <= clauses_) {
            const std::int32_t *l = literals_ + pairs_[2 * id - 2];
            const std::int32_t *const stop = l + pairs_[2 * id - 1];
            for (; l < stop; ++l)
                if (!look(static_cast<std::uint32_t>(*l < 0 ? -*l : *l), *l < 0, unit, negative)) return 20;
        } else {
            const std::uint32_t *const entries = record(id);
            if (entries == nullptr) return 19;
            const std::uint8_t *p = text_ + entries[1];
            const std::uint8_t *const stop = p + entries[2];
            while (p < stop) {
                const bool minus = *p == '-';
                if (minus) ++p;
                std::uint32_t variable = 0;
                for (; p < stop && *p != ' '; ++p) variable = variable * 10 + static_cast<std::uint32_t>(*p - '0');
                ++p;
                if (!look(variable, minus, unit, negative)) return 20;
            }
        }
        if (unit == 0) return 0;
        assign(unit, negative ? 1 : 2);
        return -1;
    }

    int addition(std::uint32_t id, const std::uint8_t *first, const std::uint8_t *last, const std::uint8_t *hints) {
        if (id <= last_) return 17;
        const std::uint8_t *p = first;
        for (;;) {
            const bool negative = p[1] == '-';
            if (negative) ++p;
            const std::uint32_t variable = next(p);
            if (variable == 0) break;
            if (variable > variables_ || values_[variable] != 0) return 18;
            assign(variable, negative ? 2 : 1);
        }
        const bool empty = last == first;
        if (!empty && places_ < 3 * static_cast<std::size_t>(count_) + 3) return 22;
        p = hints;
        for (;;) {
            const std::uint32_t named = next(p);
            if (named == 0) return 21;
            const int code = hint(named);
            if (code > 0) return code;
            if (code == 0) break;
        }
        if (empty) return 0;
        std::uint32_t *const entries = added_ + 3 * static_cast<std::size_t>(count_);
        entries[0] = last_ = id;
        entries[1] = static_cast<std::uint32_t>(first + 1 - text_);
        entries[2] = static_cast<std::uint32_t>(last - (first + 1));
        ++count_;
        return -1;
    }

    // Follows a line: -1 to go on, with `at` at the next one.
    int line(const std::uint8_t *&at) {
        const std::uint8_t *p = at;
        if (!form(p, false) || *p != ' ') return 16;
        const std::uint8_t *digits = at;
        const std::uint32_t id = read(digits);
        const std::uint8_t *last;
        if (p[1] == 'd') {
            const std::uint8_t *const ids = p + 2;
            p = ids;
            if (!run_of(p, false, last) || *p != '\n') return 16;
            at = p + 1;
            p = ids;
            for (;;) {
                const std::uint32_t named = next(p);
                if (named == 0) return -1;
                if (named <= clauses_) continue;
                std::uint32_t *const entries = record(named);
                if (entries == nullptr) return 19;
                entries[2] = 0;
            }
        }
        const std::uint8_t *const first = p;
        const std::uint8_t *stop;
        if (!run_of(p, true, last)) return 16;
        const std::uint8_t *const hints = p;
        if (!run_of(p, false, stop) || *p != '\n') return 16;
        at = p + 1;
        const int code = addition(id, first, last, hints);
        for (const std::uint32_t variable : set_) values_[variable] = 0;
        set_.clear();
        return code;
    }

    const std::uint8_t *text_;
    const std::uint8_t *end_;
    const std::uint8_t *lines_end_;
    const std::int32_t *literals_;
    const std::uint32_t *pairs_;
    std::uint32_t clauses_;
    std::uint32_t variables_;
    std::uint32_t *added_;
    std::size_t places_;
    std::uint8_t *values_;
    std::uint32_t last_;
    std::uint32_t count_ = 0;
    std::vector<std::uint32_t> set_;
};

} // namespace plain
