// The search for the least number of switches: which attempts are made, in
// which order, and when to stop.
#ifndef SEARCH_HPP
#define SEARCH_HPP

#include <vector>

#include "attempt.hpp"

// More switches than a request can have.
constexpr unsigned too_many = 8;

struct Bounds {
    unsigned upper = too_many;  // a network of so many switches has passed; 8: none has
    unsigned lower = 0;         // every network has so many switches or more

    bool network() const { return upper < too_many; }
    bool closed() const { return lower >= upper; }
};

// What the search asks of the steps.
class Attempts {
  public:
    virtual ~Attempts() = default;

    // The attempts for r switches, cheapest first.
    virtual const std::vector<Attempt>& plan(unsigned r) = 0;

    // Makes an attempt, or says how it ended where it was made before and would
    // end so again.
    virtual Outcome attempt(unsigned r, const Attempt& attempt) = 0;

    // Seeks a network of r switches without any proof.
    virtual Outcome seek(unsigned r) = 0;

    // Whether the time for the whole command is over.
    virtual bool spent() const = 0;
};

// The best bounds that can be had, from those that hold already.
Bounds seek_least(Attempts& attempts, Bounds start);

// The same for the question whether R is the least number: a network of R
// switches, and none of R - 1.
Bounds seek_settled(Attempts& attempts, unsigned r, Bounds start);

#endif
