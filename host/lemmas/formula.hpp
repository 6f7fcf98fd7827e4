// The variables of a request's clauses by name, as document 01 numbers them, and
// its rows.
//
// Rows are numbered from 0; a row is on, off or free, by the table's character 1,
// 0 or -. A free row has no variables and no clauses, so that nothing can be said
// of it: every family goes by rows that are on and rows that are off. Switches are
// numbered from 0, terminals too: 0 is the source, 2r+1 the sink, and switch s has
// the ends 2s+1 and 2s+2. Literal v below n is input v, literal n+v its complement.
#pragma once

#include <string>
#include <utility>
#include <vector>

namespace lemmas {

// A clause or a part of one; literals are DIMACS numbers.
using Clause = std::vector<int>;

class Formula {
  public:
    // The table has 2^n characters 0, 1 or -, and there are r switches and at most m
    // of them in series.
    Formula(const std::string& table, int r, int m);

    int inputs() const { return n_; }
    int literals() const { return 2 * n_; }
    int switches() const { return r_; }
    int steps() const { return m_; }
    int rows() const { return int(table_.size()); }
    bool on(int row) const { return table_[std::size_t(row)] == '1'; }
    bool off(int row) const { return table_[std::size_t(row)] == '0'; }

    // The ends of switches, 1 to 2r.
    int ends() const { return 2 * r_; }
    static int other(int e) { return e % 2 == 1 ? e + 1 : e - 1; }
    static int switch_of(int e) { return (e - 1) / 2; }
    static int first_end(int s) { return 2 * s + 1; }
    static int second_end(int s) { return 2 * s + 2; }

    // The value of a literal on a row; the row with an input turned; and the
    // literal of an input that is 1 on a row.
    bool value(int row, int literal) const;
    int turned(int row, int literal) const { return row ^ bit(literal); }
    int true_literal(int row, int input) const { return value(row, input) ? input : n_ + input; }

    // The terminals, and whether two of them are joined.
    int terminals() const { return 2 * r_ + 2; }
    int sink() const { return 2 * r_ + 1; }
    int X(int i, int j) const {
        if (i > j) std::swap(i, j);
        return i * (2 * terminals() - i - 1) / 2 + j - i;
    }
    // Switch s carries literal v.
    int L(int s, int v) const { return pairs_ + 2 * n_ * s + v + 1; }
    // On row y step t enters a switch at e; the walk has stopped before t.
    int W(int y, int t, int e) const { return start(y) + (t - 1) * (2 * r_ + 1) + e; }
    int Z(int y, int t) const { return W(y, t, 2 * r_ + 1); }
    // On row x terminal i is on the sink's side.
    int S(int x, int i) const { return start(x) + i + 1; }

  private:
    int bit(int literal) const { return 1 << (n_ - 1 - literal % n_); }
    int start(int row) const { return starts_[std::size_t(row)]; }

    std::string table_;
    int n_;
    int r_;
    int m_;
    int pairs_;                // the number of X variables, P
    std::vector<int> starts_;  // variables before each row
};

}  // namespace lemmas
