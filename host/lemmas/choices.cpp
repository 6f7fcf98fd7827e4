#include "choices.hpp"

#include <algorithm>

namespace lemmas {

namespace {

void extend(const Formula& f, std::vector<int>& chosen, std::size_t count,
            const std::function<void(const std::vector<int>&)>& use) {
    if (chosen.size() == count) {
        use(chosen);
        return;
    }
    for (int s = 0; s < f.switches(); s++) {
        if (std::find(chosen.begin(), chosen.end(), s) != chosen.end()) continue;
        chosen.push_back(s);
        extend(f, chosen, count, use);
        chosen.pop_back();
    }
}

}  // namespace

void for_each_choice(const Formula& formula, std::size_t count,
                     const std::function<void(const std::vector<int>&)>& use) {
    std::vector<int> chosen;
    extend(formula, chosen, count, use);
}

void close_choices(Derivation& d, const std::vector<int>& literals) {
    const Formula& f = d.formula();
    for (std::size_t count = literals.size(); count-- > 0;) {
        for_each_choice(f, count, [&](const std::vector<int>& chosen) {
            Clause clause;
            for (std::size_t i = 0; i < count; i++) clause.push_back(-f.L(chosen[i], literals[i]));
            d.add(clause);
        });
    }
}

}  // namespace lemmas
