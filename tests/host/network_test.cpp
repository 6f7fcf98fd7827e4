// Compares nk_check_network with the second implementation, on networks that do
// the job, that are wrong on each row, and that have not the form. settle_test
// has the networks that nk_settle hands back.
//
//   network_test    runs all groups of checks
//
// One line is printed for each group that fails. The last line is
// "N passed, M failed", in groups. The exit status is 0 only if M is 0.

#include <algorithm>
#include <cstdint>
#include <cstdio>
#include <string>
#include <vector>

#include "../second/settling.hpp"
#include "checks.hpp"
#include "entries.hpp"
#include "guarded.hpp"
#include "lent.hpp"
#include "nordkelch.h"

namespace {

// r, 7 literals and 16 labels.
using Network = std::vector<std::uint8_t>;

Random random_numbers(20240612);
Guarded guarded;

// How often each answer came up, each refusal, and each lowest wrong row by n.
unsigned long answers[3] = {0};
unsigned long refusals[25] = {0};
unsigned long wrong_rows[5][16] = {{0}};

std::uint8_t any_byte() { return std::uint8_t(random_numbers.below(256)); }

std::string network_text(const Network& network) {
    std::string text = " network";
    for (unsigned byte : network) text += " " + std::to_string(byte);
    return text;
}

std::string found_text(unsigned answer, unsigned number) {
    return std::to_string(answer) + " with " + std::to_string(number);
}

// One call, with the network at the end of the memory that may be read: the
// library finds what the second implementation finds, and writes it over any
// number. Gives the latter.
second::NetworkCheck check(Group& group, const Request& q, const Network& network) {
    const std::uint8_t* bytes = guarded.put(std::string(network.begin(), network.end()));
    Lent<std::uint32_t> number(random_numbers, {std::uint32_t(random_numbers.next() >> 32)});
    const std::uint32_t answer = ask(nk_check_network, q, bytes, number.data());
    const second::NetworkCheck want = second::check_network(q, network);
    const bool same = answer == want.answer && *number.data() == want.number &&
                      number.edges_stand() && std::equal(network.begin(), network.end(), bytes);
    group.check(same, same ? "" : numbers_of(q) + network_text(network),
                same ? ""
                     : found_text(answer, *number.data()) + ", second " +
                           found_text(want.answer, want.number));
    answers[want.answer]++;
    if (want.answer == NK_NETWORK_WRONG) wrong_rows[q.n][want.number]++;
    if (want.answer == NK_NETWORK_REFUSED) refusals[want.number]++;
    return want;
}

// One call whose answer and number are written out: both find that.
void check_found(Group& group, const Request& q, const Network& network, unsigned answer,
                 unsigned number) {
    const second::NetworkCheck found = check(group, q, network);
    group.check(found.answer == answer && found.number == number,
                numbers_of(q) + network_text(network),
                "second: " + found_text(found.answer, found.number) + ", not " +
                    found_text(answer, number));
}

// ---------------------------------------------------------------------------
// Networks
// ---------------------------------------------------------------------------

// A network with these literals and labels, and with any bytes where none is
// read.
Network network_of(const std::vector<unsigned>& literals, const std::vector<unsigned>& labels) {
    Network network(24);
    for (std::uint8_t& byte : network) byte = any_byte();
    network[0] = std::uint8_t(literals.size());
    std::copy(literals.begin(), literals.end(), network.begin() + 1);
    std::copy(labels.begin(), labels.end(), network.begin() + 8);
    return network;
}

// Whether a byte of a network of r switches is not read.
bool is_unread(std::size_t place, unsigned r) {
    return place < 8 ? place > r : place >= 8 + 2 * r + 2;
}

// Any network of r switches that has the form: few nets, so that many walks
// join them, or up to one for each terminal.
Network any_network(unsigned n, unsigned r) {
    std::vector<unsigned> literals, nets, labels;
    for (unsigned s = 0; s < r; s++) literals.push_back(unsigned(random_numbers.below(2 * n)));
    const std::size_t most = 1 + random_numbers.below(random_numbers.below(3) == 0 ? 2 * r + 2 : 5);
    for (unsigned i = 0; i < 2 * r + 2; i++) {
        nets.push_back(unsigned(random_numbers.below(most)));
        // "a label is the lowest terminal of its net"
        const auto lowest = std::find(nets.begin(), nets.end(), nets.back());
        labels.push_back(unsigned(lowest - nets.begin()));
    }
    return network_of(literals, labels);
}

// Makes the lowest wrong row free until the network does the job.
void free_wrong_rows(Group& group, Request& q, const Network& network) {
    for (;;) {
        const second::NetworkCheck found = check(group, q, network);
        if (found.answer != NK_NETWORK_WRONG) return;
        q.table &= ~(1u << found.number);
        q.free |= 1u << found.number;
    }
}

// Flips the lowest wrong row of the table until the network does the job. False
// where a row is wrong either way: it has a walk, but none of M switches.
bool mend(Group& group, Request& q, const Network& network) {
    for (int last = -1;;) {
        const second::NetworkCheck found = check(group, q, network);
        if (found.answer != NK_NETWORK_WRONG) return found.answer == NK_NETWORK_DOES;
        if (int(found.number) == last) return false;
        last = int(found.number);
        q.table ^= 1u << last;
    }
}

// Any request, with free rows in most cases.
Request any_request(unsigned n, unsigned r, unsigned m) {
    return any_request(random_numbers, n, r, m);
}

// ---------------------------------------------------------------------------
// Answers that are written out
// ---------------------------------------------------------------------------

// "P9 table 0110, r = 4, M = 2, literals 0 3 2 1, labels 0 0 2 2 4 0 6 6 4 4:
// does. P10 with M = 1: row 1. P11 "1 11 0 0", labels 0 0: does." P8's network
// has the literal 0 and "labels 0 0 2 2".
void group_examples() {
    Group group("P8 to P11");
    const Network p9 = network_of({0, 3, 2, 1}, {0, 0, 2, 2, 4, 0, 6, 6, 4, 4});
    check_found(group, {1, 2, 1, 1}, network_of({0}, {0, 0, 2, 2}), 0, 0);
    check_found(group, {2, 6, 4, 2}, p9, 0, 0);
    check_found(group, {2, 6, 4, 1}, p9, 1, 1);
    check_found(group, {1, 3, 0, 0}, network_of({}, {0, 0}), 0, 0);
    group.finish();
}

void group_walks() {
    Group group("walks, by hand");
    // source and sink on one net: "a walk of no switches then joins them on
    // every row"
    check_found(group, {1, 0, 0, 7}, network_of({}, {0, 0}), 1, 0);
    check_found(group, {1, 1, 0, 0}, network_of({}, {0, 0}), 1, 1);
    check_found(group, {1, 0, 0, 0}, network_of({}, {0, 1}), 0, 0);
    check_found(group, {1, 3, 0, 7}, network_of({}, {0, 1}), 1, 0);
    check_found(group, {1, 2, 0, 7}, network_of({}, {0, 1}), 1, 1);
    // "current passes either way"
    check_found(group, {1, 2, 1, 1}, network_of({0}, {0, 1, 0, 1}), 0, 0);
    // two in series: too long a walk for M = 1 on an on row, and a walk all the
    // same on an off row
    const Network series = network_of({0, 0}, {0, 0, 2, 2, 4, 4});
    check_found(group, {1, 2, 2, 2}, series, 0, 0);
    check_found(group, {1, 2, 2, 1}, series, 1, 1);
    check_found(group, {1, 0, 2, 1}, series, 1, 1);
    check_found(group, {1, 0, 2, 0}, series, 1, 1);
    // "Switches may dangle or have both ends on one net"
    check_found(group, {1, 2, 2, 1}, network_of({0, 1}, {0, 0, 2, 3, 4, 2}), 0, 0);
    check_found(group, {1, 2, 2, 1}, network_of({0, 1}, {0, 0, 2, 2, 2, 2}), 0, 0);
    // "Input 0 is the highest bit of a row number", "literal n+v its complement"
    const unsigned tables[] = {0xC, 0xA, 0x3, 0x5};
    for (unsigned v = 0; v < 4; v++) {
        const Network one = network_of({v}, {0, 0, 2, 2});
        check_found(group, {2, tables[v], 1, 1}, one, 0, 0);
        for (unsigned row = 0; row < 4; row++) {
            check_found(group, {2, tables[v] ^ (1u << row), 1, 1}, one, 1, row);
        }
    }
    group.finish();
}

// "A network may conduct there or not", and only on and off rows can be wrong.
void group_free_rows() {
    Group group("free rows, by hand");
    const Network none = network_of({}, {0, 1}), joined = network_of({}, {0, 0});
    for (const Network& network : {none, joined}) {
        check_found(group, {1, 0, 0, 0, 3}, network, 0, 0);
        check_found(group, {4, 0, 0, 7, 0xFFFF}, network, 0, 0);
    }
    check_found(group, {1, 0, 0, 0, 2}, none, 0, 0);
    check_found(group, {1, 0, 0, 0, 2}, joined, 1, 0);
    check_found(group, {1, 0, 0, 0, 1}, joined, 1, 1);
    check_found(group, {1, 1, 0, 0, 2}, none, 1, 0);
    check_found(group, {1, 1, 0, 0, 2}, joined, 0, 0);
    check_found(group, {1, 2, 0, 0, 1}, none, 1, 1);
    // a, which conducts on row 1
    const Network one = network_of({0}, {0, 0, 2, 2});
    for (unsigned m = 0; m <= 7; m++) {
        check_found(group, {1, 0, 1, m, 2}, one, 0, 0);
        check_found(group, {1, 1, 1, m, 2}, one, 1, 0);
        check_found(group, {1, 2, 1, m, 1}, one, m == 0 ? 1 : 0, m == 0 ? 1 : 0);
        check_found(group, {1, 0, 1, m, 1}, one, 1, 1);
    }
    // a and b in series beside a': on row 3 the walk has two switches, which is
    // too many for M = 1 unless the row is free, and none the less a walk where it
    // is off
    const Network longer = network_of({0, 1, 2}, {0, 0, 2, 2, 4, 0, 4, 4});
    check_found(group, {2, 0xB, 3, 2}, longer, 0, 0);
    check_found(group, {2, 0xB, 3, 1}, longer, 1, 3);
    check_found(group, {2, 0x3, 3, 1, 0x8}, longer, 0, 0);
    check_found(group, {2, 0x3, 3, 1, 0xC}, longer, 0, 0);
    check_found(group, {2, 0x3, 3, 1, 0x4}, longer, 1, 3);
    check_found(group, {2, 0x3, 3, 0, 0xC}, longer, 1, 0);
    check_found(group, {2, 0x2, 3, 0, 0xD}, longer, 1, 1);
    check_found(group, {2, 0x0, 3, 0, 0xF}, longer, 0, 0);
    // the lowest of the wrong rows that are not free
    for (unsigned row = 0; row < 16; row++) {
        const unsigned lower = (1u << row) - 1;
        check_found(group, {4, 0, 0, 0, lower}, joined, 1, row);
        check_found(group, {4, 0xFFFF & ~lower, 0, 7, lower}, none, 1, row);
    }
    group.finish();
}

// "13 if its r isn't the request's, or a literal or a label breaks the form",
// after those of the request.
void group_refused_by_hand() {
    Group group("refused networks, by hand");
    const Request p2 = {1, 2, 1, 1};
    const std::vector<unsigned> bad_labels[] = {{1, 1, 2, 3}, {0, 0, 1, 3},  {0, 2, 2, 3},
                                                {0, 3, 2, 3}, {0, 0, 2, 16}, {0, 0, 255, 3},
                                                {0, 1, 1, 2}, {4, 4, 4, 4},  {2, 0, 2, 0}};
    for (const auto& labels : bad_labels) check_found(group, p2, network_of({0}, labels), 2, 13);
    for (unsigned literal : {2u, 3u, 7u, 8u, 128u, 255u}) {
        check_found(group, p2, network_of({literal}, {0, 0, 2, 2}), 2, 13);
    }
    for (unsigned r : {0u, 2u, 7u, 8u, 129u, 255u}) {
        Network network = network_of({0}, {0, 0, 2, 2});
        network[0] = std::uint8_t(r);
        check_found(group, p2, network, 2, 13);
        check_found(group, {0, 2, r, 8}, network, 2, 2);
        check_found(group, {5, 2, r, 8}, network, 2, 2);
        check_found(group, {1, 4, r, 8}, network, 2, 3);
        check_found(group, {1, 2, r, 8, 6}, network, 2, 3);
        check_found(group, {1, 2, r, 8, 2}, network, 2, 24);
        check_found(group, {1, 2, 8, 8, 3}, network, 2, 24);
        check_found(group, {1, 2, 8, 8}, network, 2, 4);
        check_found(group, {1, 2, 1, 8}, network, 2, 5);
    }
    group.finish();
}

// ---------------------------------------------------------------------------
// Networks of all sizes
// ---------------------------------------------------------------------------

// Any networks of the form, with any table and with one whose job they do: where a
// row has a walk, but none of M switches, it is free in that table. Then other
// bytes where none is read: they still do it.
void group_networks() {
    Group group("networks of all sizes");
    unsigned long does = 0, only_free = 0;
    for (unsigned n = 1; n <= 4; n++) {
        for (unsigned r = 0; r <= 7; r++) {
            for (unsigned round = 0; round < 1600; round++) {
                const Network network = any_network(n, r);
                Request q = any_request(n, r, round % 8);
                if (!mend(group, q, network)) {
                    only_free++;
                    free_wrong_rows(group, q, network);
                }
                does++;
                Network other = network;
                for (const bool zero : {false, true}) {
                    for (std::size_t i = 0; i < 24; i++) {
                        if (is_unread(i, r)) other[i] = zero ? 0 : any_byte();
                    }
                    check_found(group, q, other, 0, 0);
                }
                // other rows are wrong, the lowest of which is found; a free one
                // never is
                const unsigned wrong = any_rows(random_numbers, n) & ~q.free;
                q.table ^= wrong;
                unsigned row = 0;
                while (row < 16 && (wrong >> row & 1) == 0) row++;
                check_found(group, q, other, wrong == 0 ? 0 : 1, wrong == 0 ? 0 : row);
            }
        }
    }
    std::printf("%lu networks that do the job of a table, of which %lu only with free rows\n", does,
                only_free);
    group.check(does >= 10000 && only_free >= 1000, "networks", "too few of a kind");
    group.finish();
}

// Each byte of a network that does the job takes each value. Where it is not
// read the network still does it.
void check_every_byte(Group& group, unsigned n, unsigned r) {
    const Network network = any_network(n, r);
    Request q = any_request(n, r, 7);
    group.check(mend(group, q, network), numbers_of(q), "second: wrong with M = 7");
    for (std::size_t place = 0; place < 24; place++) {
        Network other = network;
        for (unsigned byte = 0; byte < 256; byte++) {
            other[place] = std::uint8_t(byte);
            const bool still = check(group, q, other).answer == NK_NETWORK_DOES;
            if (!is_unread(place, r) && other != network) continue;
            group.check(still, numbers_of(q) + network_text(other), "second: does not");
        }
    }
}

void group_every_byte() {
    Group group("every byte of a network");
    for (unsigned n = 1; n <= 4; n++) {
        for (unsigned r = 0; r <= 7; r++) {
            for (int round = 0; round < 3; round++) check_every_byte(group, n, r);
        }
    }
    group.finish();
}

// Networks with another number of switches than the request's.
void group_other_r() {
    Group group("networks of another r");
    for (unsigned n = 1; n <= 4; n++) {
        for (unsigned r = 0; r <= 7; r++) {
            for (unsigned other = 0; other <= 7; other++) {
                for (unsigned m = 0; m <= 7 && other != r; m++) {
                    check_found(group, any_request(n, r, m), any_network(n, other), 2, 13);
                }
            }
        }
    }
    group.finish();
}

// Networks of the form in which one to three literals or labels take any value.
void group_damaged() {
    Group group("damaged networks");
    for (unsigned round = 0; round < 200000; round++) {
        const unsigned n = unsigned(1 + random_numbers.below(4));
        const unsigned r = unsigned(random_numbers.below(8));
        Network network = any_network(n, r);
        for (std::size_t changes = 1 + random_numbers.below(3); changes > 0; changes--) {
            const std::size_t place = 1 + random_numbers.below(23);
            const std::size_t values = random_numbers.below(4) == 0 ? 256 : 17;
            network[place] = std::uint8_t(random_numbers.below(values));
        }
        check(group, any_request(n, r, unsigned(random_numbers.below(8))), network);
    }
    group.finish();
}

// All labels below `values` for r switches. As many have the form as there are
// ways to put the terminals into nets.
void group_all_labels(unsigned r, unsigned values, unsigned long ways) {
    Group group("all labels of " + std::to_string(r) + " switches");
    const std::vector<unsigned> literals(r, 0);
    std::vector<unsigned> labels(2 * r + 2, 0);
    unsigned long formed = 0;
    for (bool more = true; more;) {
        const Request q = any_request(1, r, unsigned(random_numbers.below(8)));
        if (check(group, q, network_of(literals, labels)).answer != NK_NETWORK_REFUSED) formed++;
        // the next labels, or none after the last
        std::size_t i = 0;
        while (i < labels.size() && ++labels[i] == values) labels[i++] = 0;
        more = i < labels.size();
    }
    group.check(formed == ways, "labels", "second: " + std::to_string(formed) + " have the form");
    group.finish();
}

void group_seen() {
    Group group("what was found");
    std::printf("networks: %lu do, %lu are wrong, refused", answers[0], answers[1]);
    for (unsigned long count : answers) group.check(count >= 10000, "answers", "too few of a kind");
    for (int number : {2, 3, 24, 4, 5, 13}) {
        group.check(refusals[number] > 0, "refused " + std::to_string(number), "never");
        std::printf(" %lu with %d%s", refusals[number], number, number == 13 ? "\n" : ",");
    }
    for (unsigned n = 1; n <= 4; n++) {
        for (unsigned row = 0; row < 1u << n; row++) {
            group.check(wrong_rows[n][row] > 0, "n=" + std::to_string(n),
                        "row " + std::to_string(row) + " is never the lowest wrong one");
        }
    }
    group.finish();
}

}  // namespace

int main() {
    group_examples();
    group_walks();
    group_free_rows();
    group_refused_by_hand();
    group_networks();
    group_every_byte();
    group_other_r();
    group_damaged();
    group_all_labels(0, 256, 2);
    group_all_labels(1, 8, 15);
    group_all_labels(2, 7, 203);
    group_seen();
    return counts();
}
