// Compares the proved library with an enumeration of all networks: networks
// that were found pass nk_check_network, and a solver finds the library's clause
// file satisfiable for the least number of switches and unsatisfiable for one
// switch fewer. Tables with free rows, of few inputs and switches, also with every
// network that nk_check_network can be given.
//
//   enumeration_test [SOLVER]    runs all groups of checks
//
// SOLVER is a command, "cadical -q" if not given, that reads DIMACS from
// standard input and ends with 10 or 20. One line is printed for each group that fails. The last
// line is "N passed, M failed", in groups. The exit status is 0 only if M is 0.
#include "../second/enumeration.hpp"

#include <sys/wait.h>

#include <algorithm>
#include <csignal>
#include <cstdint>
#include <cstdio>
#include <set>
#include <string>
#include <vector>

#include "checks.hpp"
#include "entries.hpp"
#include "nordkelch.h"

namespace {

using enumeration::Enumeration;
using enumeration::Graph;
using enumeration::Rows;
using enumeration::Search;
using enumeration::Table;

Random random_numbers(20240613);

// Switches of the networks that are enumerated here. More take seconds, and the
// clause files for one fewer a solver much longer.
constexpr unsigned most = 5;

// ---------------------------------------------------------------------------
// Graphs and classes
// ---------------------------------------------------------------------------

// The graphs with one edge more: by an edge between any two nets, or by a net
// in the middle of an edge. Every graph comes up: with an edge from the sink
// back to the source no net separates it, and such a graph is made, from any
// cycle of it, by adding one path after the other between two nets.
std::set<Graph> one_more(const std::set<Graph>& graphs) {
    std::set<Graph> larger;
    for (const Graph& graph : graphs) {
        const unsigned nets = enumeration::nets_of(graph);
        for (unsigned a = 0; a < nets; a++) {
            for (unsigned b = a + 1; b < nets; b++) {
                Graph other = graph;
                other.emplace_back(a, b);
                larger.insert(enumeration::lowest_form(other));
            }
        }
        for (std::size_t e = 0; e < graph.size(); e++) {
            Graph other = graph;
            other.emplace_back(other[e].second, nets);
            other[e].second = nets;
            larger.insert(enumeration::lowest_form(other));
        }
    }
    return larger;
}

void group_graphs() {
    Group group("graphs made in two ways");
    const std::size_t counts[] = {1, 2, 4, 11, 31, 104, 369};
    std::set<Graph> graphs{{{0, 1}}};
    for (unsigned k = 1; k <= enumeration::most_switches; k++) {
        const std::string name = std::to_string(k) + " edges";
        group.check(enumeration::graphs_of(k) == graphs, name, "other graphs");
        group.check(graphs.size() == counts[k - 1], name, std::to_string(graphs.size()));
        graphs = one_more(graphs);
    }
    group.finish();
}

// The number of classes for each number of inputs, and of those of four inputs
// that need k switches, at M = 4. Tables of a class need the same number.
void group_classes(const std::vector<Enumeration>& networks) {
    Group group("classes of tables");
    const std::size_t counts[] = {1, 4, 20, 400};
    std::vector<unsigned> by_switches(9, 0);
    for (unsigned n = 1; n <= 4; n++) {
        const Enumeration& all = networks[n - 1];
        const std::vector<Rows> lowest = enumeration::classes(n);
        const auto ways = enumeration::renamings(n);
        group.check(lowest.size() == counts[n - 1], std::to_string(n), "another count");
        for (Rows table : lowest) {
            if (n == 4) by_switches[all.least(4, table)]++;
            for (const auto& to : ways) {
                const Rows other = enumeration::renamed(table, to);
                for (unsigned m = 0; m <= enumeration::most_bound; m++) {
                    group.check(all.least(m, table) == all.least(m, other),
                                numbers_of({n, other, 0, m}), "needs another number");
                }
            }
        }
    }
    group.check(by_switches == std::vector<unsigned>{0, 1, 2, 4, 12, 15, 366, 0, 0}, "M = 4",
                "other counts by switches");
    group.finish();
}

// ---------------------------------------------------------------------------
// Networks
// ---------------------------------------------------------------------------

// The 24 bytes of a network: "a label is the lowest terminal of its net".
std::vector<std::uint8_t> bytes_of(const enumeration::Network& network) {
    const std::size_t r = network.graph.size();
    std::vector<unsigned> nets{0};
    for (const auto& [a, b] : network.graph) {
        nets.push_back(a);
        nets.push_back(b);
    }
    nets.push_back(network.joined ? 0 : 1);
    std::vector<std::uint8_t> bytes(24, 0);
    bytes[0] = std::uint8_t(r);
    for (std::size_t s = 0; s < r; s++) bytes[1 + s] = std::uint8_t(network.literals[s]);
    for (std::size_t i = 0; i < nets.size(); i++) {
        const auto lowest = std::find(nets.begin(), nets.end(), nets[i]);
        bytes[8 + i] = std::uint8_t(lowest - nets.begin());
    }
    return bytes;
}

// What nk_check_network answers of a network that was found.
std::uint32_t checked(const Request& q, const enumeration::Network& network) {
    std::uint32_t number = 0;
    return ask(nk_check_network, q, bytes_of(network).data(), &number);
}

// Each network does the job. Where the bound below needs more switches, the
// network does not do it with that bound.
void group_networks(const std::vector<Enumeration>& networks) {
    Group group("networks that were found");
    unsigned long found = 0, longer = 0;
    for (unsigned n = 1; n <= 4; n++) {
        const Enumeration& all = networks[n - 1];
        for (unsigned m = 0; m <= enumeration::most_bound; m++) {
            for (unsigned bits = 0; bits <= enumeration::all_rows(n); bits++) {
                const Rows table = Rows(bits);
                if (!all.found(m, table)) continue;
                const unsigned k = all.least(m, table);
                const enumeration::Network& network = all.network(m, table);
                const Request q = {n, table, k, m}, shorter = {n, table, k, m - 1};
                found++;
                group.check(network.graph.size() == k && checked(q, network) == 0, numbers_of(q),
                            "the library does not pass the network");
                if (m == 0 || all.least(m - 1, table) == k) continue;
                longer++;
                group.check(checked(shorter, network) == 1, numbers_of(shorter),
                            "the library passes the network");
            }
        }
    }
    std::printf("networks: %lu, of which %lu are too long for a lower bound\n", found, longer);
    group.check(found >= 10000 && longer >= 100, "networks", "too few");
    group.finish();
}

// ---------------------------------------------------------------------------
// Clause files
// ---------------------------------------------------------------------------

// The solver's exit status on the library's file, or -1.
int solved(const std::string& solver, const Request& q) {
    static std::vector<std::uint8_t> text(420799);
    std::uint64_t size = 0;
    if (ask(nk_write_file, q, text.data(), text.size(), &size) != 0) return -1;
    std::FILE* input = popen((solver + " > /dev/null 2>&1").c_str(), "w");
    if (input == nullptr) return -1;
    const bool written = std::fwrite(text.data(), 1, size, input) == size;
    const int status = pclose(input);
    return written && WIFEXITED(status) ? WEXITSTATUS(status) : -1;
}

class Solving {
  public:
    Solving(const std::string& solver, Group& group) : solver_(solver), group_(group) {}

    // The least number of switches is the one of the enumeration, as far as
    // files of up to `largest` switches tell.
    void check(const Enumeration& all, unsigned n, Rows table, unsigned m, unsigned largest) {
        check({n, table, 0, m}, all.least(m, table), largest);
    }

    // The same for any request, whose r does not matter: k is least, if it is up to
    // `most`.
    void check(Request q, unsigned k, unsigned largest) {
        q.r = k;
        if (k <= most && k <= largest) expect(q, 10);
        q.r = std::min(k - 1, largest);
        if (k > 0) expect(q, 20);
    }

    // The file is satisfiable, 10, or not, 20.
    void expect(const Request& q, int want) {
        const int status = solved(solver_, q);
        counts_[want == 10 ? 0 : 1]++;
        group_.check(status == want, numbers_of(q),
                     "the solver ends with " + std::to_string(status));
    }

    unsigned long satisfiable() const { return counts_[0]; }
    unsigned long unsatisfiable() const { return counts_[1]; }

  private:
    std::string solver_;
    Group& group_;
    unsigned long counts_[2] = {0, 0};
};

// What fits into a quarter of a minute: all tables of up to three inputs with
// files of up to 3 switches, one table of each class with 4, and those classes
// of four inputs whose number is known here.
void group_clauses(const std::string& solver, const std::vector<Enumeration>& networks) {
    Group group("clause files");
    Solving solving(solver, group);
    for (unsigned n = 1; n <= 3; n++) {
        for (unsigned m = 0; m <= 4; m++) {
            for (unsigned table = 0; table <= enumeration::all_rows(n); table++)
                solving.check(networks[n - 1], n, Rows(table), m, 3);
        }
    }
    for (unsigned m = 1; m <= 4; m++) {
        for (Rows table : enumeration::classes(3)) solving.check(networks[2], 3, table, m, 4);
    }
    for (Rows table : enumeration::classes(4)) {
        if (networks[3].found(4, table)) solving.check(networks[3], 4, table, 4, most);
    }
    std::printf("clause files: %lu satisfiable, %lu not\n", solving.satisfiable(),
                solving.unsatisfiable());
    group.check(solving.satisfiable() >= 400 && solving.unsatisfiable() >= 1000, "files",
                "too few");
    group.finish();
}

// ---------------------------------------------------------------------------
// Free rows
// ---------------------------------------------------------------------------

Table table_of(const Request& q) { return {Rows(q.table), Rows(q.free)}; }

// The least number for a table whose free rows are on or off in some way, over all
// ways.
unsigned least_completed(const Enumeration& all, const Request& q) {
    unsigned least = all.least(q.m, Rows(q.table));
    // each set of free rows that is not empty
    for (unsigned on = q.free; on != 0; on = (on - 1) & q.free) {
        least = std::min(least, all.least(q.m, Rows(q.table | on)));
    }
    return least;
}

// The least number, and its network passes the library's check. Up to 5 switches
// there is a least network without too long a path on any row: a switch on no path
// of at most M switches can be left out, and where every switch is on such a path,
// a longer one takes 6 switches. So the number is that of some table without free
// rows.
unsigned check_least(Group& group, const Enumeration& all, const Search& search, Request q) {
    const auto network = search.network(q.m, table_of(q));
    const unsigned k = network ? unsigned(network->graph.size()) : most + 1;
    q.r = k;
    group.check(k == least_completed(all, q), numbers_of(q), "another number without free rows");
    group.check(!network || checked(q, *network) == 0, numbers_of(q),
                "the library does not pass the network");
    return k;
}

// The labels of N terminals in every way to put them into nets: "a label is the
// lowest terminal of its net".
void add_labels(std::vector<unsigned>& labels, unsigned N,
                std::vector<std::vector<unsigned>>& all) {
    const unsigned next = unsigned(labels.size());
    if (next == N) {
        all.push_back(labels);
        return;
    }
    for (unsigned label = 0; label <= next; label++) {
        if (label < next && labels[label] != label) continue;
        labels.push_back(label);
        add_labels(labels, N, all);
        labels.pop_back();
    }
}

// All networks of r switches, as bytes.
std::vector<std::vector<std::uint8_t>> all_networks(unsigned n, unsigned r) {
    std::vector<std::vector<unsigned>> all_labels;
    std::vector<unsigned> none;
    add_labels(none, 2 * r + 2, all_labels);
    std::vector<std::vector<std::uint8_t>> networks;
    unsigned choices = 1;
    for (unsigned s = 0; s < r; s++) choices *= 2 * n;
    for (const auto& labels : all_labels) {
        for (unsigned choice = 0; choice < choices; choice++) {
            std::vector<std::uint8_t> bytes(24, 0);
            bytes[0] = std::uint8_t(r);
            unsigned rest = choice;
            for (unsigned s = 0; s < r; s++, rest /= 2 * n) {
                bytes[1 + s] = std::uint8_t(rest % (2 * n));
            }
            std::copy(labels.begin(), labels.end(), bytes.begin() + 8);
            networks.push_back(bytes);
        }
    }
    return networks;
}

// Every table of n inputs and every M up to 3: for each r up to 2 some network of
// all passes the library's check, the solver finds the library's clause file
// satisfiable, and the least number is at most r; or none of the three.
void check_all_tables(Group& group, Solving& solving, const Enumeration& all, unsigned n) {
    const Search search(n, most);
    std::vector<std::vector<std::vector<std::uint8_t>>> networks;
    for (unsigned r = 0; r <= 2; r++) networks.push_back(all_networks(n, r));
    for (unsigned number = 0; number < tables_with_free(n); number++) {
        for (unsigned m = 0; m <= 3; m++) {
            Request q = {n, 0, 0, m};
            set_table(q, number);
            const unsigned k = check_least(group, all, search, q);
            for (q.r = 0; q.r <= 2; q.r++) {
                const auto passes = [&](const std::vector<std::uint8_t>& bytes) {
                    std::uint32_t row = 0;
                    return ask(nk_check_network, q, bytes.data(), &row) == NK_NETWORK_DOES;
                };
                const auto& some = networks[q.r];
                group.check(std::any_of(some.begin(), some.end(), passes) == (k <= q.r),
                            numbers_of(q), "whether the library passes a network of all");
                solving.expect(q, k <= q.r ? 10 : 20);
            }
        }
    }
}

void group_free_rows(const std::string& solver, const std::vector<Enumeration>& networks) {
    Group group("free rows");
    Solving solving(solver, group);
    for (unsigned n = 1; n <= 2; n++) check_all_tables(group, solving, networks[n - 1], n);
    // some tables of more inputs
    for (unsigned n = 3; n <= 4; n++) {
        const Search search(n, most);
        for (unsigned round = 0; round < (n == 3 ? 120 : 40); round++) {
            Request q = any_request(random_numbers, n, 0, round % 5);
            q.free |= any_rows(random_numbers, n);
            q.table &= ~q.free;
            const unsigned k = check_least(group, networks[n - 1], search, q);
            solving.check(q, k, n == 3 ? 4 : 3);
        }
    }
    std::printf("clause files with free rows: %lu satisfiable, %lu not\n", solving.satisfiable(),
                solving.unsatisfiable());
    group.check(solving.satisfiable() >= 400 && solving.unsatisfiable() >= 200, "files", "too few");
    group.finish();
}

}  // namespace

int main(int argc, char** argv) {
    std::signal(SIGPIPE, SIG_IGN);
    const std::string solver = argc > 1 ? argv[1] : "cadical -q";
    std::vector<Enumeration> networks;
    for (unsigned n = 1; n <= 4; n++) networks.emplace_back(n, most);
    group_graphs();
    group_classes(networks);
    group_networks(networks);
    group_clauses(solver, networks);
    group_free_rows(solver, networks);
    return counts();
}
