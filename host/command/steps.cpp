// The steps of an attempt for r switches:
//
//   clauses   the clause file of the request, by the proved code
//   lemmas    a derivation of further clauses from it
//   cadical   an answer, or a proof that the clauses with the lemmas have none
//   lrat      the derivation and the proof as a refutation of the clause file
//   check     the proved code's word on the refutation
//   settle    the proved code's word on the answer's network
//
// An attempt without a solver has neither answer nor proof: its derivation is a
// whole refutation. What passes is kept in FOLDER.work/kept, and so is a proof
// until it is converted, so that a run that is cut off loses no more than the
// step that it was in.
//
// A solver is stopped when its time is over, when its proof has grown so far
// that the refutation cannot fit, and when the disk is full, which it would not
// tell of itself.
#include "steps.hpp"

#include <unistd.h>

#include <algorithm>
#include <climits>
#include <cmath>
#include <sstream>

#include "files.hpp"
#include "say.hpp"
#include "sha256.hpp"

namespace {

// How many times as long as the solver's binary proof its refutation is taken to
// be at least. Converted in one pass it was seen to be 0.96 to 5.6 times as long,
// and further passes take off up to two thirds; but a proof that is much longer
// than the limit takes the converter long, and memory of which a small machine
// has little.
constexpr double least_growth = 0.6;

// Seconds of --total for what comes after the search: the report, the picture
// and the record.
constexpr double reserve = 0.5;

constexpr double progress_seconds = 10;

// Calls `tell` with the seconds, about every ten seconds.
class Progress {
  public:
    template <typename Tell>
    void at(double seconds, Tell tell) {
        if (seconds < next_) return;
        next_ += progress_seconds;
        tell(std::to_string(unsigned(seconds)));
    }

  private:
    double next_ = progress_seconds;
};

std::vector<std::string> split(const std::string& text) {
    std::istringstream words(text);
    std::vector<std::string> result;
    for (std::string word; words >> word;) result.push_back(word);
    return result;
}

// A name that can be part of a file's name.
bool is_plain(const std::string& name) {
    constexpr const char* taken = "abcdefghijklmnopqrstuvwxyz0123456789_-";
    return !name.empty() && name.find_first_not_of(taken) == name.npos;
}

// The last lines of a text.
std::string tail(const std::string& text, unsigned lines) {
    std::size_t at = text.size();
    while (at > 0 && lines > 0) {
        at = text.rfind('\n', at - 1);
        if (at == text.npos) return text;
        if (at + 1 < text.size()) lines--;
    }
    return text.substr(at + 1);
}

std::string bytes(std::uint64_t number) { return std::to_string(number) + " bytes"; }

// What came of an attempt, in a message.
void tell(const Made& made) {
    const std::string who = switches(made.switches) + ": ";
    const std::string how = " (" + made.attempt.lemmas + ")";
    switch (made.outcome) {
        case Outcome::network:
            say(who + "a network, checked");
            break;
        case Outcome::refuted:
            say(who + "none, by a refutation of " + bytes(made.refutation_bytes) + ", checked" +
                how);
            break;
        case Outcome::time:
            say(who + "no answer in " + std::to_string(unsigned(made.allowed)) + " seconds" + how);
            break;
        case Outcome::length:
            say(who + "the refutation is over the limit of " + bytes(made.limit) + how);
            break;
        case Outcome::stopped:
            say(who + "stopped at " + bytes(made.proof_bytes) +
                " of proof: the refutation would be over the limit of " + bytes(made.limit) + how);
            break;
        case Outcome::none:
            say(who + "none, says the solver; that is not checked");
            break;
        case Outcome::nothing:
            say(who + "no such lemmas" + how);
            break;
        case Outcome::failed:
            say(who + "no answer" + how);
            break;
        case Outcome::proof:
            break;
    }
}

}  // namespace

std::string tool(const std::string& name) {
    char path[PATH_MAX];
    const ssize_t length = readlink("/proc/self/exe", path, sizeof path);
    if (length <= 0) end_by_errno("cannot find the programs of host/");
    const std::string own(path, std::size_t(length));
    return own.substr(0, own.rfind('/') + 1) + name;
}

Steps::Steps(const Words& words, const Folder& folder, Journal& journal)
    : words_(words), folder_(folder), journal_(journal) {}

double Steps::left() const {
    if (!words_.total) return INFINITY;
    const double total = *words_.total;
    return total - std::min(reserve, total / 10) - seconds_since_start();
}

// ---------------------------------------------------------------------------
// Files
// ---------------------------------------------------------------------------

std::string Steps::running(const std::string& name) const { return folder_.work("run/" + name); }

std::string Steps::network_file(unsigned k) const {
    return folder_.work("kept/network-" + std::to_string(k));
}

std::string Steps::refutation_file(unsigned r) const {
    return folder_.work("kept/refutation-" + std::to_string(r));
}

// A name for the files of an attempt.
std::string Steps::stem(const Made& made) const {
    const std::string how = made.attempt.options + " " + std::to_string(made.seed);
    Sha256 hash;
    hash.add(how.data(), how.size());
    return std::to_string(made.switches) + "-" + made.attempt.lemmas + "-" +
           hash.digits().substr(0, 8);
}

std::string Steps::kept(const Made& made, const std::string& what) const {
    return folder_.work("kept/" + stem(made) + "." + what);
}

bool Steps::has_proofs() const {
    for (const std::string& name : names_in(folder_.work("kept"))) {
        if (name.size() > 6 && name.compare(name.size() - 6, 6, ".proof") == 0) return true;
    }
    return false;
}

void Steps::end_by_full_disk() const {
    throw End{failure, "no space is left on the disk of " + folder_.work_given()};
}

void Steps::test_disk() const {
    if (disk_is_full(folder_.work("run"))) end_by_full_disk();
}

std::string Steps::request_file(unsigned k) {
    const std::string name = running(std::to_string(k) + ".request");
    if (!exists(name)) write_file(name, words_.question.line(k));
    return name;
}

std::string Steps::clause_file(unsigned r) {
    const std::string name = running(std::to_string(r) + ".cnf");
    if (exists(name)) return name;
    const std::string part = running("cnf");
    if (run({{tool("clauses")}, request_file(r), part}).status != 0) {
        test_disk();
        throw End{failure, "the clause file for " + switches(r) + " is not written"};
    }
    rename_file(part, name);
    return name;
}

// ---------------------------------------------------------------------------
// The proved code's word
// ---------------------------------------------------------------------------

bool Steps::passes(unsigned k, const std::string& answer) {
    // without a refutation a network that does the job "works", at k = 0 it is
    // "least"
    const Ended ended = run({{tool("settle"), request_file(k), answer, running("no refutation")}});
    if (ended.status == 0 || ended.status == 3) return true;
    if (ended.status == 4 || ended.status == 5) return false;
    throw End{failure, "the network of " + switches(k) + " cannot be checked"};
}

bool Steps::accepts(unsigned r, const std::string& refutation) {
    const Ended ended = run({{tool("check"), request_file(r), refutation}});
    if (ended.status == 0) return true;
    if (ended.status == 5) return false;
    throw End{failure, "the refutation of " + switches(r) + " cannot be checked"};
}

Bounds Steps::kept_bounds() {
    Bounds bounds;
    for (unsigned k = 0; k < too_many && !bounds.network(); k++) {
        const std::string file = network_file(k);
        if (!exists(file)) continue;
        if (passes(k, file)) {
            bounds.upper = k;
        } else {
            remove_file(file);
        }
    }
    for (unsigned r = too_many; r-- > 0 && bounds.lower == 0;) {
        const std::string file = refutation_file(r);
        if (!exists(file)) continue;
        if (accepts(r, file)) {
            bounds.lower = r + 1;
        } else {
            remove_file(file);
        }
    }
    return bounds;
}

// ---------------------------------------------------------------------------
// Attempts
// ---------------------------------------------------------------------------

const std::vector<Attempt>& Steps::plan(unsigned r) {
    const auto known = plans_.find(r);
    if (known != plans_.end()) return known->second;
    const Question& q = words_.question;
    const std::string output = running("plan");
    Call call{{tool("lemmas"), "plan", q.table, std::to_string(r), std::to_string(q.m)}};
    call.output = output;
    if (run(call).status != 0) {
        test_disk();
        throw End{failure, "no attempts are planned for " + switches(r)};
    }
    std::vector<Attempt>& attempts = plans_[r];
    std::istringstream text(read_file(output));
    for (std::string line; std::getline(text, line);) {
        std::istringstream words(line);
        Attempt attempt;
        std::string kind;
        words >> attempt.lemmas >> kind >> std::ws;
        std::getline(words, attempt.options);
        attempt.solver = kind == "solver";
        if (!is_plain(attempt.lemmas) || (kind != "solver" && kind != "alone")) {
            throw End{failure, "lemmas plan printed \"" + line + "\""};
        }
        attempts.push_back(attempt);
    }
    return attempts;
}

// The same attempt, made before by the same programs with an outcome that it would
// have again: a solver is no quicker the second time, and its proof no shorter.
const Made* Steps::made_before(const Made& now) const {
    for (const Made& before : journal_.made()) {
        if (before.version != now.version || !same_attempt(before, now)) continue;
        if (before.outcome == Outcome::time && before.allowed >= now.allowed) return &before;
        if (before.outcome == Outcome::length && before.limit >= now.limit) return &before;
        if (before.outcome == Outcome::stopped && before.limit >= now.limit) return &before;
        if (before.outcome == Outcome::none || before.outcome == Outcome::nothing) return &before;
        if (before.outcome == Outcome::failed && before.by_this_run) return &before;
    }
    return nullptr;
}

Made Steps::made_now(unsigned r, const Attempt& attempt) const {
    Made made;
    made.version = VERSION;
    made.switches = r;
    made.attempt = attempt;
    made.seed = words_.seed;
    made.limit = words_.limit;
    made.allowed = std::max(0.0, left());
    if (attempt.solver) made.allowed = std::min<double>(words_.seconds, made.allowed);
    made.by_this_run = true;
    return made;
}

Outcome Steps::finish(const Made& made) {
    journal_.add(made);
    tell(made);
    return made.outcome;
}

Outcome Steps::attempt(unsigned r, const Attempt& attempt) {
    Made made = made_now(r, attempt);
    if (const Made* before = made_before(made)) return before->outcome;
    make(made);
    // a proof is in the journal already, and its conversion goes on in a next
    // run
    if (made.outcome == Outcome::proof) return Outcome::time;
    for (const char* what : {"proof", "derivation"}) remove_file(kept(made, what));
    return finish(made);
}

Outcome Steps::seek(unsigned r) {
    Made made = made_now(r, {"network", true, "--sat"});
    if (const Made* before = made_before(made)) return before->outcome;
    const Ended ended =
        run(solver_call(made, clause_file(r)),
            until(made.allowed, switches(r) + ": the solver has sought a network alone"));
    made.seconds.solver = ended.seconds;
    test_disk();
    if (ended.status == 10) {
        read_answer(made);
    } else if (ended.status == 20) {
        made.outcome = Outcome::none;
    } else {
        if (!ended.stopped) crashed(ended);
        made.outcome = Outcome::time;
    }
    return finish(made);
}

// The steps one after the other, each of which sets the outcome where it ends
// the attempt.
void Steps::make(Made& made) {
    const bool proved =
        made.attempt.solver && exists(kept(made, "proof")) && exists(kept(made, "derivation"));
    if (!proved) {
        if (!derive(made)) return;
        if (made.attempt.solver && !solve(made)) return;
    }
    if (convert(made)) check(made);
}

// Stops a program when the seconds are over, and tells meanwhile what it does.
Watch Steps::until(double seconds, const std::string& doing) const {
    return [=, progress = Progress()](double now) mutable {
        progress.at(now,
                    [&](const std::string& so_far) { say(doing + " for " + so_far + " seconds"); });
        return now >= seconds;
    };
}

bool Steps::derive(Made& made) {
    if (made.allowed <= 0) {
        made.outcome = Outcome::time;
        return false;
    }
    const Question& q = words_.question;
    const unsigned r = made.switches;
    const Call call{{tool("lemmas"), "derive", made.attempt.lemmas, q.table, std::to_string(r),
                     std::to_string(q.m), clause_file(r), running("derivation"),
                     running("longer.cnf")}};
    const Ended ended = run(
        call, until(left(), switches(r) + ": lemmas (" + made.attempt.lemmas + ") are derived"));
    made.seconds.lemmas = ended.seconds;
    if (ended.status == 0) return true;
    test_disk();
    made.outcome = ended.stopped       ? Outcome::time
                   : ended.status == 3 ? Outcome::nothing
                                       : Outcome::failed;
    return false;
}

Call Steps::solver_call(const Made& made, const std::string& clauses) const {
    Call call{{"cadical", "-q"}};
    for (const std::string& option : split(made.attempt.options)) call.words.push_back(option);
    call.words.push_back("--seed=" + std::to_string(made.seed));
    call.words.push_back(clauses);
    call.output = running("answer");
    call.errors = running("solver.log");
    return call;
}

// Ends the command after the solver has ended by itself without an answer.
void Steps::crashed(const Ended& ended) const {
    const std::string last = tail(read_file(running("solver.log")), 5);
    throw End{failure, "the solver ended with status " + std::to_string(ended.status) +
                           (last.empty() ? "" : "; its last messages:\n" + last)};
}

// Runs the solver on the clauses with the lemmas. Sets `cause` to why it is
// stopped, where it is.
Ended Steps::run_solver(const Made& made, Cause& cause) {
    const std::string proof = running("proof");
    Call call = solver_call(made, running("longer.cnf"));
    call.words.push_back(proof);
    const double allowed = std::min<double>(words_.seconds, left());
    const std::string at_most = " of at most " + std::to_string(unsigned(std::ceil(allowed)));
    return run(call, [&, progress = Progress()](double now) mutable {
        const std::uint64_t size = size_of(proof);
        progress.at(now, [&](const std::string& so_far) {
            say(switches(made.switches) + ": the solver has run for " + so_far + at_most +
                " seconds, " + bytes(size) + " of proof");
        });
        if (disk_is_full(folder_.work("run"))) {
            cause = Cause::disk;
        } else if (double(size) * least_growth > double(made.limit)) {
            cause = Cause::length;
        } else if (now >= allowed) {
            cause = Cause::time;
        }
        return cause != Cause::none;
    });
}

// Whether there is a proof to convert.
bool Steps::solve(Made& made) {
    Cause cause = Cause::none;
    const Ended ended = run_solver(made, cause);
    made.seconds.solver = ended.seconds;
    made.proof_bytes = size_of(running("proof"));
    // before the answer or the proof is used: a full disk may have cut it off
    if (cause == Cause::disk) end_by_full_disk();
    test_disk();
    remove_file(running("longer.cnf"));
    if (ended.status == 10) {
        read_answer(made);
        return false;
    }
    if (ended.status == 20) {
        keep_proof(made);
        return true;
    }
    remove_file(running("proof"));
    if (cause == Cause::none) crashed(ended);
    made.outcome = cause == Cause::length ? Outcome::stopped : Outcome::time;
    return false;
}

void Steps::read_answer(Made& made) {
    const std::string answer = running("answer");
    made.proof_bytes = 0;
    made.outcome = Outcome::failed;
    if (passes(made.switches, answer)) {
        rename_file(answer, network_file(made.switches));
        made.outcome = Outcome::network;
    } else {
        say(switches(made.switches) + ": the proved code does not pass the solver's answer");
    }
}

// Keeps the proof with its derivation, and has it in the journal, where the
// seconds of its conversion are added later.
void Steps::keep_proof(Made& made) {
    rename_file(running("derivation"), kept(made, "derivation"));
    rename_file(running("proof"), kept(made, "proof"));
    made.outcome = Outcome::proof;
    journal_.add(made);
    made.seconds = Seconds();
}

bool Steps::convert(Made& made) {
    const std::string refutation = running("refutation");
    Call call{{tool("lrat"), "--limit", std::to_string(made.limit), "--progress",
               std::to_string(unsigned(progress_seconds)), clause_file(made.switches)}};
    if (made.attempt.solver) {
        call.words.push_back(kept(made, "derivation"));
        call.words.push_back(kept(made, "proof"));
        made.proof_bytes = size_of(kept(made, "proof"));
    } else {
        call.words.push_back(running("derivation"));
    }
    call.words.push_back(refutation);
    const double seconds = left();
    const Ended ended = run(call, [=](double now) { return now >= seconds; });
    made.seconds.conversion = ended.seconds;
    if (ended.status == 0) {
        made.refutation_bytes = size_of(refutation);
        return true;
    }
    if (ended.status == 3) {
        made.outcome = Outcome::length;
    } else if (ended.stopped) {
        made.outcome = made.attempt.solver ? Outcome::proof : Outcome::time;
    } else {
        test_disk();
        made.outcome = Outcome::failed;
    }
    return false;
}

void Steps::check(Made& made) {
    const std::string refutation = running("refutation");
    const double before = seconds_since_start();
    const bool accepted = accepts(made.switches, refutation);
    made.seconds.check = seconds_since_start() - before;
    made.outcome = accepted ? Outcome::refuted : Outcome::failed;
    if (accepted) {
        rename_file(refutation, refutation_file(made.switches));
    } else {
        say(switches(made.switches) + ": the proved code does not accept the refutation");
    }
}
