#include "cycle.hpp"

#include <algorithm>
#include <deque>
#include <map>
#include <set>

#include "choices.hpp"

namespace lemmas {

namespace {

using Node = std::pair<Side, bool>;  // a side, and whether the way to it is odd

// A shortest odd way from a side back to itself over the edges given.
std::vector<Opposite> odd_way(const std::vector<Opposite>& edges, const Side& start) {
    std::map<Node, std::pair<Node, const Opposite*>> from;
    std::deque<Node> open{{start, false}};
    from[open.front()] = {open.front(), nullptr};
    while (!open.empty() && from.count({start, true}) == 0) {
        const Node node = open.front();
        open.pop_front();
        for (const Opposite& edge : edges) {
            for (const auto& [a, b] :
                 {std::pair{edge.first, edge.second}, {edge.second, edge.first}}) {
                const Node next{b, !node.second};
                if (!(a == node.first) || from.count(next) > 0) continue;
                from[next] = {node, &edge};
                open.push_back(next);
            }
        }
    }
    std::vector<Opposite> way;
    if (from.count({start, true}) == 0) return way;
    for (Node node{start, true}; from[node].second != nullptr; node = from[node].first) {
        way.push_back(*from[node].second);
    }
    return way;
}

}  // namespace

std::vector<int> literals_of(const std::vector<Opposite>& cycle) {
    std::vector<int> found;
    for (const Opposite& edge : cycle) {
        for (int literal : {edge.first.literal, edge.second.literal}) {
            if (std::find(found.begin(), found.end(), literal) == found.end())
                found.push_back(literal);
        }
    }
    return found;
}

std::vector<Opposite> odd_cycle(const Formula& formula) {
    const std::vector<Opposite> edges = opposites(formula);
    std::vector<Opposite> best;
    for (unsigned set = 0; set < 1u << formula.literals(); set++) {
        std::vector<Opposite> within;
        for (const Opposite& edge : edges) {
            if ((set >> edge.first.literal & 1) && (set >> edge.second.literal & 1))
                within.push_back(edge);
        }
        std::set<Side> starts;
        for (const Opposite& edge : within) starts.insert(edge.first);
        for (const Side& start : starts) {
            const std::vector<Opposite> way = odd_way(within, start);
            if (way.empty()) continue;
            const auto size = [](const std::vector<Opposite>& cycle) {
                return std::pair{literals_of(cycle).size(), cycle.size()};
            };
            if (best.empty() || size(way) < size(best)) best = way;
        }
    }
    return best;
}

void derive_cycle(Derivation& d, const std::vector<Opposite>& cycle, const Premise& premise) {
    const Formula& f = d.formula();
    for (const Opposite& edge : cycle) derive_opposite(d, edge, premise);
    const std::vector<int> literals = literals_of(cycle);
    const Side& start = cycle.front().first;
    for_each_choice(f, literals.size(), [&](const std::vector<int>& chosen) {
        Clause clause;
        int side = 0;
        for (std::size_t i = 0; i < literals.size(); i++) {
            const Clause part = premise(chosen[i], literals[i]);
            clause.insert(clause.end(), part.begin(), part.end());
            if (literals[i] == start.literal) side = f.S(start.off, Formula::first_end(chosen[i]));
        }
        d.add({side}, clause);
        d.add({}, clause);
        d.give(clause);
    });
}

}  // namespace lemmas
