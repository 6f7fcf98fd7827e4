// Compares nk_settle with the second implementation, on real cells given as files and on damaged copies of them. Each network that it
// hands back goes through nk_check_network.
//
//   settle_test ANSWER REFUTATION n table k m ...        six words for each cell, which has to come out as "least"
//   settle_test --verdict ANSWER REFUTATION n table k m  prints the verdict as the report does: "least k", "works k number",
//                                                        "fails k row" or "refused number"
//
// A file that does not exist is an empty one; the refutation of a cell with k = 0 is not read.
#include <algorithm>
#include <cstdint>
#include <cstdio>
#include <string>
#include <vector>

#include "../second/settling.hpp"
#include "files.hpp"
#include "gapped.hpp"
#include "guarded.hpp"
#include "lent.hpp"
#include "long_refutation.hpp"
#include "checks.hpp"
#include "entries.hpp"
#include "nordkelch.h"

namespace {

unsigned long verdicts[4] = {0, 0, 0, 0};
unsigned long damaged_in_all = 0;

Random random_numbers(20240610);
Guarded guarded_answer, guarded_refutation;

struct Cell {
    Request q;
    std::string answer;
    std::string refutation;
};

// The lengths that the refutation for k - 1 needs, with a place for each of its lines.
Lengths needed(const Cell& cell) {
    Request smaller = cell.q;
    if (smaller.r > 0 && smaller.r <= 8) smaller.r--;
    return exact_lengths(smaller, lines_in(cell.refutation));
}

// The network that was handed back does the job after "least" and "works", and is wrong on the same row after "fails".
std::string network_difference(const Request& q, const std::uint8_t* network, const second::Settlement& want) {
    std::uint32_t number = std::uint32_t(random_numbers.next() >> 32);
    const std::uint32_t answer = ask(nk_check_network, q, network, &number);
    const bool fails = want.verdict == NK_FAILS;
    if (answer == (fails ? NK_NETWORK_WRONG : NK_NETWORK_DOES) && number == (fails ? want.number : 0)) return "";
    return ", its network is checked as " + std::to_string(answer) + " " + std::to_string(number);
}

// One call in slices of these lengths, with random contents; the library and the second implementation agree in everything. The
// answer is the second one's.
second::Settlement compare(Group& group, const Cell& cell, const Lengths& lengths) {
    const Request& q = cell.q;
    const Slices before = any_slices(random_numbers, lengths, cell.refutation.size());
    LentSlices lent(random_numbers, before);
    Lent<std::uint8_t> network(random_numbers, any_content<std::uint8_t>(random_numbers, 24, 16));
    std::uint32_t number = std::uint32_t(random_numbers.next() >> 32);
    const std::uint32_t verdict =
        ask(nk_settle, q, guarded_answer.put(cell.answer), cell.answer.size(), guarded_refutation.put(cell.refutation),
            cell.refutation.size(), lent.literals.data(), lent.literals.length(), lent.pairs.data(), lent.pairs.length(),
            lent.added.data(), lent.added.length(), lent.values.data(), lent.values.length(), network.data(), &number);
    const second::Settlement want = second::settle(q, cell.answer, cell.refutation, before);
    std::string different = differences(lent, want.slices);
    if (verdict != want.verdict || number != want.number) {
        different += ", verdict " + std::to_string(verdict) + " " + std::to_string(number) + ", not " +
                     std::to_string(want.verdict) + " " + std::to_string(want.number);
    }
    if (network.slice() != want.network) different += ", the network differs";
    if (!network.edges_stand()) different += ", a byte outside the network is written";
    if (want.verdict != NK_REFUSED) different += network_difference(q, network.data(), want);
    const bool same = different.empty();
    group.check(same, same ? "" : numbers_of(q) + lengths_of(before), same ? "" : different.substr(2));
    verdicts[want.verdict]++;
    return want;
}

// One change of a text: a byte changed, left out or put in, or the text cut.
void damage(std::string& text) {
    static const std::string bytes = "0123456789 -\ncvsd";
    if (text.empty()) return;
    const std::size_t place = random_numbers.below(text.size());
    switch (random_numbers.below(4)) {
    case 0: text[place] = bytes[random_numbers.below(bytes.size())]; break;
    case 1: text.erase(place, 1); break;
    case 2: text.insert(place, 1, bytes[random_numbers.below(bytes.size())]); break;
    default: text.resize(place); break;
    }
}

std::size_t changed_by(std::size_t length, int more) {
    return more < 0 && length < std::size_t(-more) ? 0 : std::size_t(long(length) + more);
}

// "works" with 7, 8 or 14 where a slice is too short, the lowest that applies, and 22 where a clause has no place; else "least".
// Each slice is one entry short, as long as needed and one longer, in all mixtures; and each by itself has every length around the
// needed one and none at all. A long refutation has fewer of them.
void group_lengths(const Cell& cell) {
    Group group("slices of all lengths");
    const Lengths exact = needed(cell);
    std::size_t Lengths::*const slices[] = {&Lengths::literals, &Lengths::pairs, &Lengths::added, &Lengths::values};
    const bool is_long = cell.refutation.size() > 50000;
    for (int mixture = 0; mixture < (is_long ? 0 : 81); mixture++) {
        Lengths lengths = exact;
        int rest = mixture;
        for (const auto slice : slices) {
            lengths.*slice = changed_by(exact.*slice, rest % 3 - 1);
            rest /= 3;
        }
        compare(group, cell, lengths);
    }
    for (const auto slice : slices) {
        for (int more = is_long ? -1 : -9; more <= (is_long ? 1 : 9); more++) {
            Lengths lengths = exact;
            lengths.*slice = changed_by(exact.*slice, more);
            const bool least = compare(group, cell, lengths).verdict == 0;
            if (slice == &Lengths::added) continue;
            group.check(least == (more >= 0 || cell.q.r == 0), numbers_of(cell.q), "second: verdict");
        }
        Lengths lengths = exact;
        lengths.*slice = 0;
        compare(group, cell, lengths);
    }
    // every length of the added slice, where they are few
    for (std::size_t length = 0; length <= exact.added + 2 && !is_long && exact.added < 1000; length++) {
        compare(group, cell, {exact.literals, exact.pairs, length, exact.values});
    }
    group.finish();
}

// Copies with a damaged answer, refutation, table or M, other free rows, or slices that are too short. There are fewer of a long
// refutation.
void group_damaged(const Cell& cell) {
    Group group("damaged cells");
    const std::size_t copies = std::clamp<std::size_t>(60000000 / (cell.refutation.size() + 1), 50, 25000);
    for (std::size_t copy = 0; copy < copies; copy++) {
        Cell other = cell;
        Lengths lengths = needed(cell);
        switch (random_numbers.below(7)) {
        case 0: damage(other.answer); break;
        case 1:
        case 2: damage(other.refutation); break;
        case 3:
            // where the other number has the bit too it is 24
            (random_numbers.below(2) == 0 ? other.q.table : other.q.free) ^= 1u << random_numbers.below(16);
            break;
        case 4: other.q.m = unsigned(random_numbers.below(9)); break;
        case 5: {
            const int more = int(random_numbers.below(5)) - 3;
            lengths = {changed_by(lengths.literals, more), changed_by(lengths.pairs, more), changed_by(lengths.added, more),
                       changed_by(lengths.values, more)};
            break;
        }
        default:
            damage(other.answer);
            damage(other.refutation);
            break;
        }
        compare(group, other, lengths);
    }
    damaged_in_all += copies;
    group.finish();
}

// Refutations of megabytes made from the cell's, up to the longest that is read, the longest with gaps between its ids: "least";
// "works" with 16 where a byte near the end is damaged; and "works" with 15 one byte past the limit, though that byte would be unread.
void group_long(const Cell& cell) {
    Group group("long refutations");
    const std::size_t most = 16777215;
    Request smaller = cell.q;
    smaller.r--;
    const LongRefutation source(smaller, cell.refutation);
    Cell longer = cell;
    for (const std::size_t bytes : {std::size_t(4000000), most}) {
        longer.refutation = source.text(bytes, LongRefutation::Hints::near, bytes < most ? Gaps::none : Gaps::third);
        group.check(compare(group, longer, needed(longer)).verdict == 0, numbers_of(cell.q), "second: not least");
        longer.refutation[longer.refutation.size() - 1 - random_numbers.below(bytes / 20)] = 'x';
        group.check(compare(group, longer, needed(longer)).number == 16, numbers_of(cell.q), "second: not 16");
    }
    longer.refutation = source.text(most, LongRefutation::Hints::far);
    longer.refutation.resize(most, 'x');
    group.check(compare(group, longer, needed(longer)).verdict == 0, numbers_of(cell.q), "second: not least at the limit");
    longer.refutation += 'x';
    group.check(compare(group, longer, needed(longer)).number == 15, numbers_of(cell.q), "second: not 15 past the limit");
    group.finish();
}

void group_least(const Cell& cell) {
    Group group("a cell as it is given is least");
    const Lengths exact = needed(cell);
    for (const Lengths& lengths : {exact, Lengths{exact.literals + 7, exact.pairs + 7, exact.added + 7, exact.values + 7}}) {
        group.check(compare(group, cell, lengths).verdict == 0, numbers_of(cell.q), "second: not least");
    }
    // the same with gaps between its ids
    unsigned V = 0, C = 0, T = 0;
    Cell other = cell;
    if (cell.q.r > 0) {
        Request smaller = cell.q;
        smaller.r--;
        second::counts(smaller, V, C, T);
    }
    for (const Gaps gaps : all_gaps) {
        other.refutation = gapped(cell.refutation, C, gaps);
        group.check(compare(group, other, exact).verdict == 0, numbers_of(cell.q), "second: not least with gaps");
    }
    group.finish();
}

Cell cell_of(char** words) { return {request_of(words + 2), text_of_file(words[0]), text_of_file(words[1])}; }

// Prints the verdict of one cell. The exit status is 1 if the second implementation has another.
int verdict_of(char** words) {
    const Cell cell = cell_of(words);
    Group group("verdict");
    const second::Settlement settled = compare(group, cell, needed(cell));
    static const char* const names[] = {"least", "works", "fails", "refused"};
    std::printf("%s", names[settled.verdict]);
    if (settled.verdict < 3) std::printf(" %u", cell.q.r);
    if (settled.verdict > 0) std::printf(" %u", settled.number);
    std::printf("\n");
    group.finish();
    return groups_failed == 0 ? 0 : 1;
}

} // namespace

int main(int count, char** words) {
    if (count == 8 && std::string(words[1]) == "--verdict") return verdict_of(words + 2);
    if (count < 7 || (count - 1) % 6 != 0) {
        std::fprintf(stderr, "usage: settle_test ANSWER REFUTATION n table k m ...\n"
                             "       settle_test --verdict ANSWER REFUTATION n table k m\n");
        return 2;
    }
    for (int i = 1; i < count; i += 6) {
        const Cell cell = cell_of(words + i);
        group_least(cell);
        group_lengths(cell);
        group_damaged(cell);
        if (cell.refutation.size() > 900000) group_long(cell);
    }
    std::printf("%lu damaged cells; settled: %lu least, %lu works, %lu fails, %lu refused\n", damaged_in_all, verdicts[0],
                verdicts[1], verdicts[2], verdicts[3]);
    return counts();
}
