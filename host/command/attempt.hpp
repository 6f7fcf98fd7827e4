// What an attempt to decide a number of switches is, and how one can end.
#ifndef ATTEMPT_HPP
#define ATTEMPT_HPP

#include <cstdint>
#include <string>

// An attempt of `lemmas plan`: a family of lemmas, and whether a solver runs on
// the clauses with them, with which options.
struct Attempt {
    std::string lemmas;
    bool solver = false;
    std::string options;  // words between single spaces
};

enum class Outcome {
    network,  // a network, which the proved code has passed
    refuted,  // a refutation, which the proved code has accepted
    time,     // no answer in the seconds allowed
    length,   // a refutation, over the limit
    stopped,  // the proof grew so far that a refutation cannot fit
    none,     // no network, by the solver's word alone; no refutation was sought
    nothing,  // the lemmas have nothing to say of this request
    failed,   // a program failed, or the proved code refused what was made
    proof,    // the solver has a proof, which is not converted yet
};

struct Seconds {
    double lemmas = 0;
    double solver = 0;
    double conversion = 0;
    double check = 0;
};

// An attempt that was made.
struct Made {
    std::string version;  // of the programs that made it
    unsigned switches = 0;
    Attempt attempt;
    unsigned seed = 0;
    std::uint64_t limit = 0;
    double allowed = 0;  // seconds
    Outcome outcome = Outcome::failed;
    Seconds seconds;
    std::uint64_t proof_bytes = 0;
    std::uint64_t refutation_bytes = 0;
    bool by_this_run = false;
};

// Whether both are the same attempt for the same number of switches, with the
// same seed; a solver then does the same in both.
bool same_attempt(const Made& one, const Made& other);

const char* name_of(Outcome outcome);

#endif
