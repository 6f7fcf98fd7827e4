#include "formula.hpp"

namespace lemmas {

Formula::Formula(const std::string& table, int r, int m) : table_(table), n_(0), r_(r), m_(m) {
    while ((std::size_t(1) << n_) < table.size()) n_++;
    const int terminals = 2 * r + 2;
    pairs_ = terminals * (terminals - 1) / 2;
    int before = pairs_ + 2 * n_ * r;
    for (int row = 0; row < rows(); row++) {
        starts_.push_back(before);
        if (on(row)) before += m * (2 * r + 1);
        if (off(row)) before += terminals;
    }
}

bool Formula::value(int row, int literal) const {
    const bool input = (row & bit(literal)) != 0;
    return literal < n_ ? input : !input;
}

}  // namespace lemmas
