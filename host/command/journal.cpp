// The journal, a text that is only added to.
//
// Its first line is the question. Then a line for each attempt:
//
//   attempt VERSION SWITCHES LEMMAS KIND SEED LIMIT ALLOWED OUTCOME
//     LEMMAS-SECONDS SOLVER-SECONDS CONVERSION-SECONDS CHECK-SECONDS
//     PROOF-BYTES REFUTATION-BYTES OPTIONS...
//
// and "run SECONDS" for each run. Nothing is believed because it stands here:
// the journal tells which attempts need not be made again, and what they cost.
// A line that a crash cut off, or that has another form, is passed over.
#include "journal.hpp"

#include <cstdio>
#include <cstdlib>
#include <sstream>

#include "files.hpp"

namespace {

constexpr Outcome outcomes[] = {Outcome::network, Outcome::refuted, Outcome::time,
                                Outcome::length,  Outcome::stopped, Outcome::none,
                                Outcome::nothing, Outcome::failed,  Outcome::proof};

std::string decimal(double number) {
    char text[64];
    std::snprintf(text, sizeof text, "%.3f", number);
    return text;
}

std::string line_of(const Made& made) {
    std::ostringstream line;
    line << "attempt " << made.version << ' ' << made.switches << ' ' << made.attempt.lemmas << ' '
         << (made.attempt.solver ? "solver" : "alone") << ' ' << made.seed << ' ' << made.limit
         << ' ' << decimal(made.allowed) << ' ' << name_of(made.outcome);
    const Seconds& s = made.seconds;
    for (const double part : {s.lemmas, s.solver, s.conversion, s.check}) {
        line << ' ' << decimal(part);
    }
    line << ' ' << made.proof_bytes << ' ' << made.refutation_bytes;
    if (!made.attempt.options.empty()) line << ' ' << made.attempt.options;
    line << '\n';
    return line.str();
}

// A number with a point; the seconds allowed may be "inf", which >> does not
// take.
bool take(std::istream& line, double& number) {
    std::string word;
    if (!(line >> word)) return false;
    char* end = nullptr;
    number = std::strtod(word.c_str(), &end);
    return *end == 0;
}

bool take(std::istream& line, Outcome& outcome) {
    std::string word;
    line >> word;
    for (const Outcome one : outcomes) {
        if (word == name_of(one)) {
            outcome = one;
            return true;
        }
    }
    return false;
}

std::optional<Made> made_of(std::istream& line) {
    Made made;
    std::string kind;
    line >> made.version >> made.switches >> made.attempt.lemmas >> kind >> made.seed >> made.limit;
    made.attempt.solver = kind == "solver";
    Seconds& s = made.seconds;
    const bool good = line && take(line, made.allowed) && take(line, made.outcome) &&
                      take(line, s.lemmas) && take(line, s.solver) && take(line, s.conversion) &&
                      take(line, s.check) &&
                      bool(line >> made.proof_bytes >> made.refutation_bytes);
    if (!good) return std::nullopt;
    line >> std::ws;
    std::getline(line, made.attempt.options);
    return made;
}

}  // namespace

bool same_attempt(const Made& one, const Made& other) {
    return one.switches == other.switches && one.attempt.lemmas == other.attempt.lemmas &&
           one.attempt.solver == other.attempt.solver &&
           one.attempt.options == other.attempt.options && one.seed == other.seed;
}

const char* name_of(Outcome outcome) {
    switch (outcome) {
        case Outcome::network:
            return "network";
        case Outcome::refuted:
            return "refuted";
        case Outcome::time:
            return "time";
        case Outcome::length:
            return "length";
        case Outcome::stopped:
            return "stopped";
        case Outcome::none:
            return "none";
        case Outcome::nothing:
            return "nothing";
        case Outcome::failed:
            return "failed";
        case Outcome::proof:
            return "proof";
    }
    return "";
}

Journal::Journal(const std::string& name, const Question& question) : name_(name) {
    const bool settle = question.job == Job::settle;
    head_ = settle ? "nordkelch settle " + question.line(question.r)
                   : "nordkelch least " + std::to_string(question.n) + " " + question.table + " " +
                         std::to_string(question.m) + "\n";
}

bool Journal::fits() const { return exists(name_) && read_file(name_).rfind(head_, 0) == 0; }

void Journal::start() { write_file(name_, head_); }

void Journal::read() {
    std::string whole = read_file(name_);
    if (!whole.empty() && whole.back() != '\n') {
        append_file(name_, "\n");
        whole += '\n';
    }
    std::istringstream text(whole);
    for (std::string line; std::getline(text, line);) {
        std::istringstream words(line);
        std::string kind;
        words >> kind;
        double seconds = 0;
        if (kind == "run" && take(words, seconds)) seconds_before_ += seconds;
        if (kind != "attempt") continue;
        if (const auto made = made_of(words)) keep(*made);
    }
}

void Journal::keep(const Made& made) {
    for (Made& one : made_) {
        if (one.outcome != Outcome::proof || !same_attempt(one, made)) continue;
        const Seconds before = one.seconds;
        one = made;
        one.seconds.lemmas += before.lemmas;
        one.seconds.solver += before.solver;
        one.seconds.conversion += before.conversion;
        one.seconds.check += before.check;
        return;
    }
    made_.push_back(made);
}

void Journal::add(const Made& made) {
    append_file(name_, line_of(made));
    keep(made);
}

void Journal::add_run(double seconds) {
    if (!run_added_) append_file(name_, "run " + decimal(seconds) + "\n");
    run_added_ = true;
}

std::optional<Made> Journal::refuting(unsigned r) const {
    for (auto made = made_.rbegin(); made != made_.rend(); ++made) {
        if (made->switches == r && made->outcome == Outcome::refuted) return *made;
    }
    return std::nullopt;
}
