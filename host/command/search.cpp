// The search. It goes by bounds: a network that has passed lowers the upper
// one, a refutation that was accepted raises the lower one, and when they meet
// the question is settled. Both are the proved code's word, so nothing that
// stands here can make a verdict wrong; it decides how much time is spent on
// what.
//
// `least` takes three steps.
//
// 1. Jump. Lemmas by counting alone ("pigeonhole") refute many numbers at once,
//    at hardly any cost, so the highest such number comes first.
// 2. Climb, from the lower bound up to a network: for each number the attempts
//    up to the first one with a solver. A number that stays open does not end
//    the climb, since a network above it is of use by itself.
// 3. Close the gap from above, since the refutation for one switch fewer than
//    the network has settles the cell whatever is open below: all attempts for
//    that number. A solver is stopped once its proof is too long to be of use,
//    and may then have been on its way to a network: so one is sought without
//    a proof before the number is left open. Last come the numbers below,
//    which at least raises the lower bound.
#include "search.hpp"

#include <algorithm>
#include <set>
#include <utility>

namespace {

class Search {
  public:
    Search(Attempts& attempts, Bounds start) : attempts_(attempts), bounds_(start) {}

    const Bounds& bounds() const { return bounds_; }

    void jump() {
        for (unsigned r = bounds_.upper; r-- > bounds_.lower;) {
            for (const Attempt& attempt : attempts_.plan(r)) {
                if (attempt.lemmas != "pigeonhole") continue;
                make(r, attempt);
                return;
            }
        }
    }

    void climb() {
        for (unsigned r = bounds_.lower; r < bounds_.upper; r++) decide_cheaply(r);
    }

    void close() {
        while (!bounds_.closed()) {
            const unsigned upper = bounds_.upper;
            if (decide(upper - 1) || seek(upper - 1)) continue;
            for (unsigned r = upper - 1; r-- > bounds_.lower;) {
                if (decide(r)) break;
            }
            // a network is a new start; anything else has no more to give
            if (bounds_.upper == upper) return;
        }
    }

    // Makes the attempts for r in their order until one decides it.
    bool decide(unsigned r) {
        for (const Attempt& attempt : attempts_.plan(r)) {
            if (make(r, attempt)) return true;
        }
        return false;
    }

    // Seeks a network of r switches, where a solver that was stopped might have
    // found one and none has ended without.
    bool seek(unsigned r) {
        if (attempts_.spent() || !was(r, Outcome::stopped) || was(r, Outcome::length)) return false;
        return note(r, attempts_.seek(r));
    }

  private:
    // The attempts up to the first one for which a solver runs, which may find a
    // network.
    void decide_cheaply(unsigned r) {
        for (const Attempt& attempt : attempts_.plan(r)) {
            if (make(r, attempt)) return;
            if (attempt.solver && last_ != Outcome::nothing) return;
        }
    }

    // Makes one attempt for r; whether r is decided.
    bool make(unsigned r, const Attempt& attempt) {
        if (attempts_.spent()) return false;
        return note(r, attempts_.attempt(r, attempt));
    }

    // Takes an outcome for r into the bounds; whether it decides r.
    bool note(unsigned r, Outcome outcome) {
        seen_.insert({r, outcome});
        last_ = outcome;
        if (outcome == Outcome::network) bounds_.upper = std::min(bounds_.upper, r);
        if (outcome == Outcome::refuted) bounds_.lower = std::max(bounds_.lower, r + 1);
        return outcome == Outcome::network || outcome == Outcome::refuted;
    }

    bool was(unsigned r, Outcome outcome) const { return seen_.count({r, outcome}) > 0; }

    Attempts& attempts_;
    Bounds bounds_;
    std::set<std::pair<unsigned, Outcome>> seen_;
    Outcome last_ = Outcome::nothing;
};

}  // namespace

Bounds seek_least(Attempts& attempts, Bounds start) {
    Search search(attempts, start);
    search.jump();
    // a network from an earlier run needs no climb
    if (!search.bounds().network()) search.climb();
    search.close();
    return search.bounds();
}

Bounds seek_settled(Attempts& attempts, unsigned r, Bounds start) {
    Search search(attempts, start);
    const auto open = [&](unsigned k) {
        return search.bounds().lower <= k && k < search.bounds().upper;
    };
    if (open(r) && !search.decide(r)) search.seek(r);
    if (r > 0 && search.bounds().upper == r && open(r - 1)) search.decide(r - 1);
    return search.bounds();
}
