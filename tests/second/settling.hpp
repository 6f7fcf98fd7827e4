// A second implementation of checking a network and of settling, written from
// documents 01 and 02 alone.
#pragma once

#include <cstdint>
#include <string>
#include <vector>

#include "answers.hpp"
#include "clauses.hpp"
#include "refutations.hpp"

namespace second {

// The least number of closed switches on a walk from the source's net to the
// sink's, or -1 if none joins them. "A switch is closed on a row when its
// literal is 1 there; current passes either way."
inline int shortest_walk(const Request& q, const Reading& network, unsigned row) {
    std::vector<int> steps(16, -1);
    steps[network.labels[0]] = 0;
    for (int length = 0; length < 16; length++) {
        for (unsigned s = 0; s < q.r; s++) {
            if (!literal_is_one(q.n, network.literals[s], row)) continue;
            const unsigned a = network.labels[std::size_t(first_end(int(s)))];
            const unsigned b = network.labels[std::size_t(second_end(int(s)))];
            if (steps[a] == length && steps[b] < 0) steps[b] = length + 1;
            if (steps[b] == length && steps[a] < 0) steps[a] = length + 1;
        }
    }
    return steps[network.labels[std::size_t(sink(q))]];
}

// Whether a network is right on a row. On a free row it "may conduct [...] or
// not".
inline bool is_right(const Request& q, const Reading& network, unsigned row) {
    const int walk = shortest_walk(q, network, row);
    switch (row_of(q, row)) {
        case Row::on: return walk >= 0 && walk <= int(q.m);
        case Row::off: return walk < 0;
        case Row::free: return true;
    }
    return false;
}

// "does", which is -1 here, or the lowest wrong row. "A network does the job
// when its on and off rows are right".
inline int wrong_row(const Request& q, const Reading& network) {
    for (unsigned row = 0; row < (1u << q.n); row++) {
        if (!is_right(q, network, row)) return int(row);
    }
    return -1;
}

// "a literal or a label breaks the form": there is no literal from 2n on, and
// "a label is the lowest terminal of its net", where "equal labels mean one
// net".
inline bool has_form(const Request& q, const Reading& network) {
    for (unsigned literal : network.literals) {
        if (literal >= 2 * q.n) return false;
    }
    for (unsigned label : network.labels) {
        std::size_t lowest = 0;
        while (network.labels[lowest] != label) lowest++;
        if (label != lowest) return false;
    }
    return true;
}

// What checking a network gives: 0 does, 1 wrong, 2 refused; and 0, the lowest
// wrong row, or the refusal.
struct NetworkCheck {
    unsigned answer;
    unsigned number;
};

// "Checking a network", given as r, 7 literals and 16 labels: "13 if its r
// isn't the request's, or a literal or a label breaks the form. Otherwise
// "does", or the lowest wrong row." "Array entries past r literals and N labels
// are [...] unread in one that we are given."
inline NetworkCheck check_network(const Request& q, const std::vector<std::uint8_t>& bytes) {
    const int refused = refusal(q);
    if (refused != 0) return {2, unsigned(refused)};
    if (bytes[0] != q.r) return {2, 13};
    Reading network = {0, {}, {}};
    for (std::size_t s = 0; s < q.r; s++) network.literals.push_back(bytes[1 + s]);
    for (std::size_t i = 0; i < std::size_t(terminals(q)); i++) {
        network.labels.push_back(bytes[8 + i]);
    }
    if (!has_form(q, network)) return {2, 13};
    const int row = wrong_row(q, network);
    if (row >= 0) return {1, unsigned(row)};
    return {0, 0};
}

// What settling gives: 0 least, 1 works, 2 fails, 3 refused; the number that
// goes with it; r, 7 literals and 16 labels; and what it leaves in the slices.
struct Settlement {
    unsigned verdict;
    unsigned number;
    std::vector<std::uint8_t> network;
    Slices slices;
};

// "Settling takes a request with r = k, an answer, a refutation for k-1: the
// answer's refusals; "fails" with the row; then, for k above 0, "works" with
// the refutation's number; else "least"."
inline Settlement settle(const Request& q, const std::string& answer, const std::string& refutation, const Slices& lent) {
    Settlement result{3, 0, std::vector<std::uint8_t>(24, 0), lent};
    const Reading network = read_answer(q, answer);
    result.number = unsigned(network.refusal);
    if (network.refusal != 0) return result;
    result.network[0] = std::uint8_t(q.r);
    for (std::size_t s = 0; s < network.literals.size(); s++) result.network[1 + s] = std::uint8_t(network.literals[s]);
    for (std::size_t i = 0; i < network.labels.size(); i++) result.network[8 + i] = std::uint8_t(network.labels[i]);
    const int row = wrong_row(q, network);
    if (row >= 0) {
        result.verdict = 2;
        result.number = unsigned(row);
        return result;
    }
    result.verdict = 0;
    result.number = 0;
    if (q.r == 0) return result;
    Request smaller = q;
    smaller.r = q.r - 1;
    const Outcome outcome = check_refutation(smaller, refutation, lent);
    result.slices = outcome.slices;
    if (outcome.number != 0) {
        result.verdict = 1;
        result.number = unsigned(outcome.number);
    }
    return result;
}

} // namespace second
