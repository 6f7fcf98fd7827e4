#include "part.hpp"

#include <algorithm>

#include "choices.hpp"

namespace lemmas {

namespace {

// How far the search goes: conflicts of one try, literals of a part, how many sets
// of literals are looked at again, and how often.
constexpr std::size_t most_conflicts = 600;
constexpr int most_literals = 5;
constexpr std::size_t best_sets = 3;
constexpr unsigned tries = 40;

// What a part is sought for: a literal to spare, -1 for none, and what is derived
// already.
struct World {
    int spare = -1;
    std::set<Side> cuts;
    std::set<Opposite> opposites;
};

// About how many numbers the refutation has for a part: its lines, for each choice
// of the carriers that they rest on or name, and the passes of those cuts and
// opposites that are not derived yet.
std::size_t cost(const Formula& f, const PartFormula& formula, const Part& part,
                 const World& world) {
    const std::size_t r = std::size_t(f.switches());
    // a carrier is told by one literal, or by all other switches; a row by nothing,
    // or by them
    const std::size_t carrier = world.spare < 0 ? 1 : r - 1;
    const std::size_t row = world.spare < 0 ? 0 : r - 1;
    std::size_t sum = 0;
    for (const Line& line : part.lines) {
        const int carriers = __builtin_popcount(carriers_of(line.under));
        const int rows = __builtin_popcount(line.under) - carriers;
        std::size_t numbers = line.clause.size() + line.hints + 3 +
                              std::size_t(carriers) * carrier + std::size_t(rows) * row;
        for (int i = 0; i < formula.switches(line); i++) numbers *= std::size_t(f.switches() - i);
        sum += numbers;
    }
    // passes have about 11 numbers on a line besides; their first links and last
    // ones are shared
    const std::size_t ends = 2 * r;
    const std::size_t steps = std::size_t(f.steps());
    const std::size_t link = r * ends * (ends - 2) * (11 + carrier);
    const std::size_t pairs = 2 * r * (r - 1) * (ends + 4 * steps) * (8 + 2 * carrier);
    for (const Side& cut : part.cuts) {
        if (world.cuts.count(cut) == 0) sum += 2 * (steps > 2 ? steps - 2 : 0) * link;
    }
    for (const Opposite& o : part.opposites) {
        if (world.opposites.count(o) == 0) sum += 4 * (steps > 3 ? steps - 3 : 0) * link + pairs;
    }
    return sum;
}

// The shortest contradiction of some literals that so many tries find.
Part shortest(const Formula& f, const Essential& essential, const std::vector<int>& literals,
              unsigned count, const World& world) {
    Part best;
    for (bool all_opposites : {true, false}) {
        const PartFormula formula(f, essential, literals, world.spare, all_opposites);
        Search search(formula.variables(), formula.clauses(), formula.under());
        for (unsigned seed = 0; seed < count; seed++) {
            if (!search.refute(most_conflicts, seed)) break;
            Part part = formula.part_of(search);
            part.cost = cost(f, formula, part, world);
            if (part.cost < best.cost) best = std::move(part);
        }
    }
    return best;
}

std::vector<int> members(const std::vector<int>& names, unsigned set) {
    std::vector<int> found;
    for (std::size_t i = 0; i < names.size(); i++) {
        if (set >> i & 1) found.push_back(names[i]);
    }
    return found;
}

Part find(const Formula& formula, const Essential& essential, const World& world) {
    std::vector<int> names;
    for (const auto& entry : essential) {
        if (entry.first != world.spare) names.push_back(entry.first);
    }
    // the sets of literals that contradict each other, without those that have a
    // smaller one within
    std::vector<std::pair<std::size_t, unsigned>> sets;
    for (int size = 2; size <= most_literals; size++) {
        for (unsigned set = 0; set < 1u << names.size(); set++) {
            if (__builtin_popcount(set) != size) continue;
            const bool larger = std::any_of(sets.begin(), sets.end(), [set](const auto& entry) {
                return (entry.second & ~set) == 0;
            });
            if (larger) continue;
            const Part part = shortest(formula, essential, members(names, set), 1, world);
            if (part.found()) sets.push_back({part.cost, set});
        }
    }
    std::sort(sets.begin(), sets.end());
    if (sets.size() > best_sets) sets.resize(best_sets);
    Part best;
    for (const auto& entry : sets) {
        Part part = shortest(formula, essential, members(names, entry.second), tries, world);
        if (part.cost < best.cost) best = std::move(part);
    }
    return best;
}

// Whether a part serves as well where another literal is to spare: it has a single
// carrier for each of its own, and its rows do not close that one.
bool serves(const Formula& f, const Part& part, int spare) {
    for (int literal : part.literals) {
        if (literal == spare) return false;
    }
    for (int y = 0; y < f.rows(); y++) {
        if ((part.under() & row_bit(y)) && f.value(y, spare)) return false;
    }
    return true;
}

// The part with its carriers chosen: for a row of it, and for a line, what has to
// be assumed, as the literals of a clause.
class Placed {
  public:
    Placed(Derivation& d, const PartFormula& formula, const Part& part, bool spare,
           const std::vector<int>& chosen)
        : d_(d),
          formula_(formula),
          part_(part),
          spare_(spare),
          chosen_(chosen),
          premise_(spare ? alone(d.formula()) : carries(d.formula())) {}

    // Other switches than the carriers take no part in the walk of a row, where they
    // carry nothing that is closed on it.
    void derive_open(int y) {
        const Formula& f = d_.formula();
        Clause carriers;
        std::vector<bool> closed(std::size_t(f.switches()), false);
        for (std::size_t i = 0; i < chosen_.size(); i++) {
            if (!f.value(y, part_.literals[i])) continue;
            join(carriers, premise_(chosen_[i], part_.literals[i]));
            closed[std::size_t(chosen_[i])] = true;
        }
        for (int s = 0; s < f.switches(); s++) {
            if (closed[std::size_t(s)]) continue;
            Clause clause = carriers;
            const Clause others = others_closed(y, s);
            join(clause, others);
            join(rows_[y], others);
            for (int t = 1; t <= f.steps(); t++) {
                d_.add({-f.W(y, t, Formula::first_end(s))}, clause);
                d_.add({-f.W(y, t, Formula::second_end(s))}, clause);
            }
        }
    }

    Clause clause_of(const Line& line) const {
        Clause clause;
        for (int literal : line.clause) clause.push_back(formula_.placed(chosen_, literal));
        std::set<int> under;
        for (std::size_t i = 0; i < chosen_.size(); i++) {
            if ((line.under & carrier_bit(int(i))) == 0) continue;
            for (int literal : premise_(chosen_[i], part_.literals[i])) under.insert(literal);
        }
        for (const auto& [y, others] : rows_) {
            if (line.under & row_bit(y)) under.insert(others.begin(), others.end());
        }
        clause.insert(clause.end(), under.begin(), under.end());
        return clause;
    }

  private:
    static void join(Clause& a, const Clause& b) { a.insert(a.end(), b.begin(), b.end()); }

    // Literals outside the part that are closed on the row, for a switch that is no
    // carrier. Without a switch to spare no such literal is carried.
    Clause others_closed(int y, int s) const {
        const Formula& f = d_.formula();
        Clause clause;
        for (int v = 0; spare_ && v < f.literals(); v++) {
            const bool taken =
                std::find(part_.literals.begin(), part_.literals.end(), v) != part_.literals.end();
            if (!taken && f.value(y, v)) clause.push_back(f.L(s, v));
        }
        return clause;
    }

    Derivation& d_;
    const PartFormula& formula_;
    const Part& part_;
    bool spare_;
    const std::vector<int>& chosen_;
    Premise premise_;
    std::map<int, Clause> rows_;
};

// The cuts, the opposites, and the part's lines for each choice of carriers.
void derive_lines(Derivation& d, const Essential& essential, const Part& part, bool spare) {
    const Formula& f = d.formula();
    const PartFormula formula(f, essential, part.literals, -1, true);
    const Premise premise = spare ? alone(f) : carries(f);
    Essential cuts;
    for (int literal : part.literals) {
        for (const Border& border : essential.at(literal)) {
            if (part.cuts.count({literal, border.off}) > 0) cuts[literal].push_back(border);
        }
    }
    derive_cuts(d, cuts, premise);
    for (const Opposite& o : part.opposites) derive_opposite(d, o, premise);
    for_each_choice(f, part.literals.size(), [&](const std::vector<int>& chosen) {
        Placed placed(d, formula, part, spare, chosen);
        for (int y = 0; y < f.rows(); y++) {
            if (part.under() & row_bit(y)) placed.derive_open(y);
        }
        for (const Line& line : part.lines) d.add(placed.clause_of(line));
        if (spare) d.give(placed.clause_of(part.lines.back()));
    });
}

}  // namespace

Part find_part(const Formula& formula, const Essential& essential) {
    return find(formula, essential, {});
}

std::vector<Part> find_parts(const Formula& formula, const Essential& essential) {
    std::vector<Part> parts;
    World world;
    for (world.spare = 0; world.spare < formula.literals(); world.spare++) {
        const bool served = std::any_of(parts.begin(), parts.end(), [&](const Part& part) {
            return serves(formula, part, world.spare);
        });
        if (served) continue;
        Part part = find(formula, essential, world);
        if (!part.found()) return {};
        world.cuts.insert(part.cuts.begin(), part.cuts.end());
        world.opposites.insert(part.opposites.begin(), part.opposites.end());
        parts.push_back(std::move(part));
    }
    return parts;
}

void derive_part(Derivation& d, const Essential& essential, const Part& part) {
    derive_lines(d, essential, part, false);
    close_choices(d, part.literals);
}

void derive_spare_part(Derivation& d, const Essential& essential, const Part& part) {
    derive_lines(d, essential, part, true);
}

}  // namespace lemmas
