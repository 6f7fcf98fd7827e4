// The clauses of a request by plain nested loops, to time the proved code against. They go to an Out, which has
//
//   counts(V, C)        the numbers of variables and clauses, first
//   literal(x), end()   a literal of the clause, and the clause's end
#pragma once

namespace plain {

template <typename Out>
struct Clauses {
    int n, table, free, r, m;
    int N, P, sink, ends;
    Out out;

    // `free` has the free rows, which have no variables and no clauses.
    Clauses(int n_, int table_, int free_, int r_, int m_, Out out_)
        : n(n_), table(table_), free(free_), r(r_), m(m_), N(2 * r + 2), P(N * (N - 1) / 2),
          sink(2 * r + 1), ends(2 * r), out(out_) {}

    void all() {
        head();
        nets();
        literals();
        rows();
    }

    int variables() const { return P + 2 * n * r + on_rows() * m * (ends + 1) + off_rows() * N; }

  private:
    void clause(int a) { out.literal(a), out.end(); }
    void clause(int a, int b) { out.literal(a), out.literal(b), out.end(); }
    void clause(int a, int b, int c) { out.literal(a), out.literal(b), out.literal(c), out.end(); }

    int X(int i, int j) const {
        return i < j ? i * (2 * N - i - 1) / 2 + j - i : j * (2 * N - j - 1) / 2 + i - j;
    }
    int L(int s, int v) const { return P + 2 * n * s + v + 1; }
    bool is_on(int row) const { return ((table >> row) & 1) == 1; }
    bool is_free(int row) const { return ((free >> row) & 1) == 1; }
    bool is_one(int v, int row) const {
        return v < n ? ((row >> (n - 1 - v)) & 1) == 1 : ((row >> (2 * n - 1 - v)) & 1) == 0;
    }
    static int other(int e) { return e % 2 == 1 ? e + 1 : e - 1; }

    int on_rows() const {
        int on = 0;
        for (int row = 0; row < (1 << n); row++) on += is_on(row);
        return on;
    }
    int off_rows() const {
        int off = 0;
        for (int row = 0; row < (1 << n); row++) off += !is_on(row) && !is_free(row);
        return off;
    }

    void head() {
        const int on_clauses =
            m == 0 ? 1 : m + m * ends * n + ends + 1 + (m - 1) * ends * ends + ends;
        const int off_clauses = 2 + 2 * P + 2 * r * n;
        const int first_clauses = N * (N - 1) * (N - 2) / 2 + r * (1 + n * (2 * n - 1));
        out.counts(variables(), first_clauses + on_rows() * on_clauses + off_rows() * off_clauses);
    }

    void nets() {
        for (int i = 0; i < N; i++) {
            for (int j = i + 1; j < N; j++) {
                for (int k = j + 1; k < N; k++) {
                    clause(-X(i, j), -X(j, k), X(i, k));
                    clause(-X(i, j), -X(i, k), X(j, k));
                    clause(-X(i, k), -X(j, k), X(i, j));
                }
            }
        }
    }

    void literals() {
        for (int s = 0; s < r; s++) {
            for (int v = 0; v < 2 * n; v++) out.literal(L(s, v));
            out.end();
            for (int v = 0; v < 2 * n; v++) {
                for (int w = v + 1; w < 2 * n; w++) clause(-L(s, v), -L(s, w));
            }
        }
    }

    void on_row(int row, int B) {
        if (m == 0) return clause(X(0, sink));
        const int step = ends + 1;
        const auto W = [=](int t, int e) { return B + (t - 1) * step + e; };
        const auto Z = [=](int t) { return B + t * step; };
        for (int t = 1; t <= m; t++) {
            for (int e = 1; e <= ends; e++) out.literal(W(t, e));
            clause(Z(t));
        }
        for (int t = 1; t <= m; t++) {
            for (int e = 1; e <= ends; e++) {
                for (int v = 0; v < 2 * n; v++) {
                    if (!is_one(v, row)) clause(-W(t, e), -L((e - 1) / 2, v));
                }
            }
        }
        for (int e = 1; e <= ends; e++) clause(-W(1, e), X(0, e));
        clause(-Z(1), X(0, sink));
        for (int t = 1; t < m; t++) {
            for (int e = 1; e <= ends; e++) {
                const int o = other(e);
                for (int g = 1; g <= ends; g++) {
                    if (g != o) clause(-W(t, e), -W(t + 1, g), X(o, g));
                }
                clause(-W(t, e), -Z(t + 1), X(o, sink));
            }
        }
        for (int e = 1; e <= ends; e++) clause(-W(m, e), X(other(e), sink));
    }

    void off_row(int row, int B) {
        const auto S = [=](int i) { return B + i + 1; };
        clause(-S(0));
        clause(S(sink));
        for (int i = 0; i < N; i++) {
            for (int j = i + 1; j < N; j++) {
                clause(-X(i, j), -S(i), S(j));
                clause(-X(i, j), S(i), -S(j));
            }
        }
        for (int s = 0; s < r; s++) {
            const int a = 2 * s + 1, b = 2 * s + 2;
            for (int v = 0; v < 2 * n; v++) {
                if (!is_one(v, row)) continue;
                clause(-L(s, v), -S(a), S(b));
                clause(-L(s, v), S(a), -S(b));
            }
        }
    }

    void rows() {
        int B = P + 2 * n * r;
        for (int row = 0; row < (1 << n); row++) {
            if (is_on(row)) {
                on_row(row, B);
                B += m * (ends + 1);
            } else if (!is_free(row)) {
                off_row(row, B);
                B += N;
            }
        }
    }
};

}  // namespace plain
