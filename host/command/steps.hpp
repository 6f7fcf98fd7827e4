// The steps of an attempt, each by a program of host/ or by the solver.
#ifndef STEPS_HPP
#define STEPS_HPP

#include <map>
#include <string>
#include <vector>

#include "folder.hpp"
#include "journal.hpp"
#include "process.hpp"
#include "search.hpp"
#include "words.hpp"

// The path of a program of host/, which stands beside this one.
std::string tool(const std::string& name);

class Steps : public Attempts {
  public:
    Steps(const Words& words, const Folder& folder, Journal& journal);

    const std::vector<Attempt>& plan(unsigned r) override;
    Outcome attempt(unsigned r, const Attempt& attempt) override;
    Outcome seek(unsigned r) override;
    bool spent() const override { return left() <= 0; }

    // The bounds of what earlier runs have kept, checked again.
    Bounds kept_bounds();

    // Where a network of k switches is kept, as the solver's answer, and a
    // refutation of r switches.
    std::string network_file(unsigned k) const;
    std::string refutation_file(unsigned r) const;

    // Whether an answer's network of k switches does the job, and whether a
    // refutation of r switches is accepted, by the proved code.
    bool passes(unsigned k, const std::string& answer);
    bool accepts(unsigned r, const std::string& refutation);

    // Whether a proof is kept that is not converted yet.
    bool has_proofs() const;

  private:
    // Why a solver is stopped.
    enum class Cause { none, time, length, disk };

    double left() const;  // seconds of the whole command
    Watch until(double seconds, const std::string& doing) const;
    std::string request_file(unsigned k);
    std::string clause_file(unsigned r);
    const Made* made_before(const Made& now) const;
    Made made_now(unsigned r, const Attempt& attempt) const;
    Outcome finish(const Made& made);
    void make(Made& made);
    bool derive(Made& made);
    Call solver_call(const Made& made, const std::string& clauses) const;
    Ended run_solver(const Made& made, Cause& cause);
    [[noreturn]] void crashed(const Ended& ended) const;
    bool solve(Made& made);
    void read_answer(Made& made);
    void keep_proof(Made& made);
    bool convert(Made& made);
    void check(Made& made);
    [[noreturn]] void end_by_full_disk() const;
    void test_disk() const;
    std::string stem(const Made& made) const;
    std::string kept(const Made& made, const std::string& what) const;
    std::string running(const std::string& name) const;

    const Words& words_;
    const Folder& folder_;
    Journal& journal_;
    std::map<unsigned, std::vector<Attempt>> plans_;
};

#endif
