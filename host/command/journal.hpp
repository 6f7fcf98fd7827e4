// The journal of a folder: every attempt that was made for it, by this run and
// by those before.
#ifndef JOURNAL_HPP
#define JOURNAL_HPP

#include <optional>
#include <string>
#include <vector>

#include "attempt.hpp"
#include "words.hpp"

class Journal {
  public:
    // Of the file `name`, for this question; nothing is read or written yet.
    Journal(const std::string& name, const Question& question);

    // Whether the file is a journal of this question.
    bool fits() const;

    void start();  // a new file
    void read();   // goes on with the file

    // Adds a line to the file. The second step of an attempt whose first step
    // ended with a proof is added to it.
    void add(const Made& made);
    // Adds this run's seconds, once.
    void add_run(double seconds);

    const std::vector<Made>& made() const { return made_; }
    const std::string& name() const { return name_; }
    double seconds_before() const { return seconds_before_; }

    // The attempt that has refuted r switches, if one has.
    std::optional<Made> refuting(unsigned r) const;

  private:
    void keep(const Made& made);

    std::string name_;
    std::string head_;
    std::vector<Made> made_;
    double seconds_before_ = 0;
    bool run_added_ = false;
};

#endif
