// Every network of up to 7 switches, by trying all of them: what the least
// number of switches is for each table and each bound M, without clauses, a
// solver or a refutation. Rests on document 01's "Networks" and on document 02's
// free rows alone, and shares no code with the other files of this folder.
//
// A network is a graph with a source and a sink, an edge for each switch, and a
// literal on each edge. A walk of the fewest switches is a simple path, so the
// simple paths tell which rows are joined, and within which bound. Edges that
// lie on no simple path from source to sink join nothing that the others do not
// join, so the network without them does the same job with fewer switches;
// graphs with such edges are left out, and so are those with source and sink on
// one net, but for the one without edges. Of graphs that differ in the names of
// their nets alone, or in which net is the source and which the sink, one is
// kept. Then every choice of literals is tried: with 7 switches and 4 inputs
// 369 graphs with 2,097,152 choices each, about ten seconds.
//
// Where a network conducts decides which table without free rows is its job. With
// free rows it may do the job of many tables, and on a free row its paths may be
// longer than M; so such a table is sought by itself.
#pragma once

#include <algorithm>
#include <array>
#include <cstddef>
#include <cstdint>
#include <numeric>
#include <optional>
#include <set>
#include <utility>
#include <vector>

namespace enumeration {

constexpr unsigned most_switches = 7;
constexpr unsigned most_bound = 7;

// ---------------------------------------------------------------------------
// Graphs
// ---------------------------------------------------------------------------

// Two nets, the lower first. Net 0 is the source, net 1 the sink.
using Edge = std::pair<unsigned, unsigned>;
using Graph = std::vector<Edge>;
// A set of edges of a graph: bit e for edge e.
using Edges = unsigned;

inline unsigned length(Edges path) { return unsigned(__builtin_popcount(path)); }

// The number of nets, which are named without gaps.
inline unsigned nets_of(const Graph& graph) {
    unsigned nets = 2;
    for (const Edge& edge : graph) nets = std::max(nets, edge.second + 1);
    return nets;
}

// Adds the paths that go on from a net, over nets that are not visited yet, to
// the sink.
inline void go_on(const Graph& graph, unsigned net, unsigned visited, Edges used,
                  std::vector<Edges>& paths) {
    if (net == 1) {
        paths.push_back(used);
        return;
    }
    for (unsigned e = 0; e < graph.size(); e++) {
        const auto& [a, b] = graph[e];
        if (a != net && b != net) continue;
        const unsigned next = a == net ? b : a;
        if ((visited >> next & 1) == 0)
            go_on(graph, next, visited | 1u << next, used | 1u << e, paths);
    }
}

// The simple paths from source to sink, the shortest first.
inline std::vector<Edges> paths_of(const Graph& graph) {
    std::vector<Edges> paths;
    go_on(graph, 0, 1, 0, paths);
    std::stable_sort(paths.begin(), paths.end(),
                     [](Edges p, Edges q) { return length(p) < length(q); });
    return paths;
}

inline bool every_edge_on_a_path(const Graph& graph) {
    Edges on_paths = 0;
    for (Edges path : paths_of(graph)) on_paths |= path;
    return on_paths == (1u << graph.size()) - 1;
}

// The lowest, as a sorted list of edges, of all graphs that differ from this
// one in the names of the nets.
inline Graph lowest_form(const Graph& graph) {
    std::vector<unsigned> names(nets_of(graph));
    std::iota(names.begin(), names.end(), 0);
    Graph lowest;
    for (int swapped = 0; swapped < 2; swapped++) {
        std::sort(names.begin() + 2, names.end());
        do {
            Graph renamed;
            for (const auto& [a, b] : graph) renamed.push_back(std::minmax(names[a], names[b]));
            std::sort(renamed.begin(), renamed.end());
            if (lowest.empty() || renamed < lowest) lowest = renamed;
        } while (std::next_permutation(names.begin() + 2, names.end()));
        std::swap(names[0], names[1]);
    }
    return lowest;
}

// Adds the graphs of k edges that begin with these, are sorted, and use a new
// net only if it has the next name. No lowest form is lost. Its nets come up in
// the order of their names, since swapping two that do not would give a lower
// list. And its edges have one new net at most: all edges that leave the nets
// named so far stand before one between two new nets, so there would be no path
// to it.
inline void add_edges(Graph& graph, unsigned k, std::set<Graph>& graphs) {
    if (graph.size() == k) {
        if (every_edge_on_a_path(graph)) graphs.insert(lowest_form(graph));
        return;
    }
    const unsigned nets = nets_of(graph);
    for (unsigned a = 0; a < nets; a++) {
        for (unsigned b = a + 1; b <= nets; b++) {
            if (!graph.empty() && Edge(a, b) < graph.back()) continue;
            graph.emplace_back(a, b);
            add_edges(graph, k, graphs);
            graph.pop_back();
        }
    }
}

// The graphs of k edges, k above 0.
inline std::set<Graph> graphs_of(unsigned k) {
    std::set<Graph> graphs;
    Graph none;
    add_edges(none, k, graphs);
    return graphs;
}

// ---------------------------------------------------------------------------
// Networks
// ---------------------------------------------------------------------------

// The rows of a table, or rows on which something is so: bit k for row k.
using Rows = std::uint16_t;

struct Network {
    Graph graph;
    std::array<unsigned, most_switches> literals{};
    bool joined = false;  // source and sink are one net; the graph has no edge
};

inline Rows all_rows(unsigned n) { return Rows((1u << (1u << n)) - 1); }

// "Input 0 is the highest bit of a row number [...]. Literal v below n is input
// v, literal n+v its complement."
inline Rows closed_rows(unsigned n, unsigned literal) {
    unsigned rows = 0;
    for (unsigned row = 0; row < 1u << n; row++) {
        const unsigned input = row >> (n - 1 - literal % n) & 1;
        if (input == (literal < n ? 1 : 0)) rows |= 1u << row;
    }
    return Rows(rows);
}

// The two networks without switches: apart, and with source and sink on one net.
inline Network without_switches(bool joined) {
    Network network;
    network.joined = joined;
    return network;
}

// For each path of a graph the rows on which its switches are closed.
using Closed = std::vector<Rows>;

// All literals for the switches of a graph.
class Choices {
  public:
    Choices(unsigned n, const Graph& graph)
        : paths_(paths_of(graph)), closed_(graph.size() + 1, Closed(paths_.size(), all_rows(n))) {
        network_.graph = graph;
        for (unsigned v = 0; v < 2 * n; v++) literals_.push_back(closed_rows(n, v));
    }

    // Hands each network to a function, with its paths and where they are closed,
    // until the function answers true; whether it does.
    template <typename Use>
    bool any(Use use) {
        return any_from(0, use);
    }

  private:
    template <typename Use>
    bool any_from(std::size_t s, Use& use) {
        if (s == network_.graph.size()) return use(network_, paths_, closed_[s]);
        for (unsigned v = 0; v < literals_.size(); v++) {
            network_.literals[s] = v;
            for (std::size_t p = 0; p < paths_.size(); p++) {
                const bool uses = (paths_[p] >> s & 1) != 0;
                closed_[s + 1][p] = uses ? closed_[s][p] & literals_[v] : closed_[s][p];
            }
            if (any_from(s + 1, use)) return true;
        }
        return false;
    }

    Network network_;
    std::vector<Edges> paths_;
    std::vector<Closed> closed_;  // by the first s switches alone
    std::vector<Rows> literals_;  // the rows on which each is 1
};

// ---------------------------------------------------------------------------
// Tables without free rows
// ---------------------------------------------------------------------------

// The least number of switches for each table of n inputs and each bound, among
// networks of up to `most` switches, with a network of that number.
class Enumeration {
  public:
    Enumeration(unsigned n, unsigned most)
        : n_(n), none_(most + 1), found_((most_bound + 1) * (std::size_t(all_rows(n)) + 1)) {
        for (Found& found : found_) found.switches = none_;
        place(0, 0) = {0, without_switches(false)};
        place(0, all_rows(n)) = {0, without_switches(true)};
        for (unsigned k = 1; k <= most; k++) {
            for (const Graph& graph : graphs_of(k)) {
                Choices(n, graph).any([this](const auto&... choice) { return keep(choice...); });
            }
        }
        allow_longer();
    }

    // most + 1 where no network of up to `most` switches does the job
    unsigned least(unsigned m, Rows table) const { return at(m, table).switches; }
    bool found(unsigned m, Rows table) const { return least(m, table) < none_; }
    // one that does the job, where one was found
    const Network& network(unsigned m, Rows table) const { return at(m, table).network; }

  private:
    struct Found {
        unsigned switches = 0;
        Network network;
    };
    std::size_t index(unsigned m, Rows table) const {
        return m * (std::size_t(all_rows(n_)) + 1) + table;
    }
    Found& place(unsigned m, Rows table) { return found_[index(m, table)]; }
    const Found& at(unsigned m, Rows table) const { return found_[index(m, table)]; }

    // The table whose job the network does is that of the rows on which some
    // path is closed. The lowest bound is the length of the last path, in order
    // of length, that is closed on a row where none before it is. False, so that
    // the next one is tried too.
    bool keep(const Network& network, const std::vector<Edges>& paths, const Closed& closed) {
        unsigned joined = 0, bound = 0;
        for (std::size_t p = 0; p < paths.size(); p++) {
            if ((closed[p] & ~joined) == 0) continue;
            joined |= closed[p];
            bound = length(paths[p]);
        }
        Found& best = place(bound, Rows(joined));
        const unsigned switches = unsigned(network.graph.size());
        if (switches < best.switches) best = {switches, network};
        return false;
    }

    // What does the job with a bound does it with a higher one.
    void allow_longer() {
        for (unsigned m = 1; m <= most_bound; m++) {
            for (unsigned table = 0; table <= all_rows(n_); table++) {
                const Found& shorter = at(m - 1, Rows(table));
                if (shorter.switches <= least(m, Rows(table))) place(m, Rows(table)) = shorter;
            }
        }
    }

    unsigned n_;
    unsigned none_;
    std::vector<Found> found_;
};

// ---------------------------------------------------------------------------
// Tables with free rows
// ---------------------------------------------------------------------------

// A table's on rows and free rows; the others are off.
struct Table {
    Rows on = 0;
    Rows free = 0;
};

// "A network does the job when its on and off rows are right": on each on row a
// path of at most m switches is closed, on each off row none of any length. On a
// free row "a network may conduct [...] or not".
inline bool does_job(const Table& table, unsigned m, const std::vector<Edges>& paths,
                     const Closed& closed) {
    unsigned within = 0, at_all = 0;
    for (std::size_t p = 0; p < paths.size(); p++) {
        at_all |= closed[p];
        if (length(paths[p]) <= m) within |= closed[p];
    }
    return (table.on & ~within) == 0 && (at_all & ~(table.on | table.free)) == 0;
}

// Seeks the least network for one table after the other, among networks of n
// inputs and up to `most` switches. A search ends with the first that does the job;
// where none does, it tries as many as the whole enumeration.
class Search {
  public:
    Search(unsigned n, unsigned most) : n_(n), none_(most + 1) {
        for (unsigned k = 1; k <= most; k++) graphs_.push_back(graphs_of(k));
    }

    // One of the least number of switches, if there is one.
    std::optional<Network> network(unsigned m, const Table& table) const {
        // without switches it conducts on no row, or on all
        if (table.on == 0) return without_switches(false);
        if ((table.on | table.free) == all_rows(n_)) return without_switches(true);
        std::optional<Network> found;
        const auto does = [&](const Network& network, const std::vector<Edges>& paths,
                              const Closed& closed) {
            if (!does_job(table, m, paths, closed)) return false;
            found = network;
            return true;
        };
        for (const std::set<Graph>& graphs : graphs_) {
            for (const Graph& graph : graphs) {
                if (Choices(n_, graph).any(does)) return found;
            }
        }
        return std::nullopt;
    }

    // most + 1 where no network of up to `most` switches does the job
    unsigned least(unsigned m, const Table& table) const {
        const std::optional<Network> found = network(m, table);
        return found ? unsigned(found->graph.size()) : none_;
    }

  private:
    unsigned n_;
    unsigned none_;
    std::vector<std::set<Graph>> graphs_;  // of 1 edge, of 2, and so on
};

// ---------------------------------------------------------------------------
// Classes of tables
// ---------------------------------------------------------------------------

// Where each row goes under each renaming and complementing of inputs.
inline std::vector<std::vector<unsigned>> renamings(unsigned n) {
    std::vector<std::vector<unsigned>> all;
    std::vector<unsigned> names(n);
    std::iota(names.begin(), names.end(), 0);
    do {
        for (unsigned complemented = 0; complemented < 1u << n; complemented++) {
            std::vector<unsigned> to;
            for (unsigned row = 0; row < 1u << n; row++) {
                unsigned renamed = complemented;
                for (unsigned bit = 0; bit < n; bit++) renamed ^= (row >> bit & 1) << names[bit];
                to.push_back(renamed);
            }
            all.push_back(to);
        }
    } while (std::next_permutation(names.begin(), names.end()));
    return all;
}

inline Rows renamed(Rows table, const std::vector<unsigned>& to) {
    unsigned rows = 0;
    for (unsigned row = 0; row < to.size(); row++) rows |= (table >> row & 1u) << to[row];
    return Rows(rows);
}

// The lowest table, as a number, of each class of tables that are equal after
// renaming and complementing inputs; the two constant tables are left out.
inline std::vector<Rows> classes(unsigned n) {
    const std::vector<std::vector<unsigned>> ways = renamings(n);
    std::vector<bool> seen(std::size_t(all_rows(n)) + 1, false);
    std::vector<Rows> lowest;
    for (unsigned table = 1; table < all_rows(n); table++) {
        if (seen[table]) continue;
        lowest.push_back(Rows(table));
        for (const auto& to : ways) seen[renamed(Rows(table), to)] = true;
    }
    return lowest;
}

}  // namespace enumeration
