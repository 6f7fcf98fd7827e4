// The main command, started by host/nordkelch, which has its words, its options
// and its exit statuses for whoever runs it.
//
//   nordkelch least TABLE M [FOLDER]    nordkelch settle TABLE R M [FOLDER]
//
// This file composes: the folder is taken or refused, what an earlier run has
// left is looked at, the search goes from there, and its result takes the
// folder's place. Nothing is said here of a network or a refutation that the
// proved code, in the programs settle and check, has not said.
//
// However a run ends, what it has found is left where the next run of the same
// request finds it: in FOLDER, or, after an interrupt or a failure, in
// FOLDER.work.
#include <cerrno>
#include <csignal>
#include <cstdio>
#include <cstring>
#include <exception>

#include "files.hpp"
#include "folder.hpp"
#include "journal.hpp"
#include "process.hpp"
#include "record.hpp"
#include "result.hpp"
#include "say.hpp"
#include "search.hpp"
#include "steps.hpp"
#include "words.hpp"

namespace {

class Command {
  public:
    explicit Command(const Words& words)
        : words_(words), question_(words.question), folder_(words.folder) {}

    // The whole run; its exit status.
    int run();

  private:
    void judge_work();
    std::optional<Record> earlier_record() const;
    void open_work(const std::optional<Record>& earlier);
    void insist(const std::string& fault) const;
    void take_over(const Record& earlier, const Steps& steps);
    int repeat(const Record& earlier);
    int search(const std::optional<Record>& earlier);
    int conclude(const Bounds& bounds, const Steps& steps);
    void print_report() const;
    int tell(const Record& record, const Bounds& bounds, const Steps& steps) const;
    int tell_open(const Record& record, const Bounds& bounds, const Steps& steps) const;
    void put_away();

    const Words& words_;
    const Question& question_;
    Folder folder_;
    Journal journal_{"", question_};
    bool worth_keeping_ = false;  // FOLDER.work has what FOLDER has not
};

int status_of(const Interrupted& interrupted) {
    say(std::string("interrupted (") + strsignal(interrupted.signal) + ")");
    return 128 + interrupted.signal;
}

int Command::run() {
    folder_.take();
    journal_ = Journal(folder_.work("journal"), question_);
    judge_work();
    folder_.test_files();
    const std::optional<Record> earlier = earlier_record();
    int status = failure;
    try {
        open_work(earlier);
        if (earlier) insist(fault_of(*earlier, question_, folder_));
        const bool done = earlier && earlier->verdict != Verdict::open;
        return done ? repeat(*earlier) : search(earlier);
    } catch (const End& end) {
        say(end.message);
        status = end.status;
    } catch (const Interrupted& interrupted) {
        status = status_of(interrupted);
    }
    put_away();
    return status;
}

// ---------------------------------------------------------------------------
// What earlier runs have left
// ---------------------------------------------------------------------------

// FOLDER.work is empty, or of this question, or else refused or emptied.
void Command::judge_work() {
    if (folder_.work_empty()) return;
    const std::string name = folder_.work_given();
    if (!exists(journal_.name())) {
        throw End{failure,
                  name + " has something else in it; move it away, or name another folder"};
    }
    if (words_.force) {
        folder_.clear_work();
    } else if (!journal_.fits()) {
        throw End{failure, name + " is the work on another request; --force gives it up"};
    }
}

// The record in FOLDER, if there is one to go on from.
std::optional<Record> Command::earlier_record() const {
    if (words_.force || folder_.empty()) return std::nullopt;
    const std::string& name = folder_.given();
    if (!exists(folder_.file("record.json"))) {
        throw End{failure, name + " has files and no record.json; --force takes it all the same"};
    }
    const auto record = read_record(read_file(folder_.file("record.json")), question_);
    if (!record) {
        throw End{failure, name + " is the result of another request; --force replaces it"};
    }
    return record;
}

void Command::open_work(const std::optional<Record>& earlier) {
    // the journal is the first file, by which FOLDER.work is known to be ours
    worth_keeping_ = exists(journal_.name());
    if (!worth_keeping_) {
        if (earlier && Journal(folder_.file("journal.txt"), question_).fits()) {
            copy_file(folder_.file("journal.txt"), journal_.name());
        } else {
            journal_.start();
        }
    }
    journal_.read();
    folder_.open_work();
}

// Ends where the files in FOLDER have a fault.
void Command::insist(const std::string& fault) const {
    if (fault.empty()) return;
    throw End{failure, "the files in " + folder_.given() + " no longer check: " + fault +
                           "; --force does it anew"};
}

// Keeps the network and the refutation of an open result for the search.
void Command::take_over(const Record& earlier, const Steps& steps) {
    if (earlier.k && !exists(steps.network_file(*earlier.k))) {
        copy_file(folder_.file("answer.txt"), steps.network_file(*earlier.k));
    }
    if (earlier.lower > 0 && !exists(steps.refutation_file(earlier.lower - 1))) {
        copy_file(folder_.file("lower-refutation.txt"), steps.refutation_file(earlier.lower - 1));
    }
}

// A folder that is settled, and whose files have been checked again: nothing
// else runs.
int Command::repeat(const Record& earlier) {
    folder_.clear_work();
    print_report();
    say("settled before, and checked again; the files are in " + folder_.given());
    return earlier.verdict == Verdict::least ? settled : more_than;
}

// ---------------------------------------------------------------------------
// The search and its result
// ---------------------------------------------------------------------------

int Command::search(const std::optional<Record>& earlier) {
    Steps steps(words_, folder_, journal_);
    if (earlier) take_over(*earlier, steps);
    if (!journal_.made().empty()) say("going on with what an earlier run has left");
    const Bounds start = steps.kept_bounds();
    if (earlier && (start.lower < earlier->lower || start.upper > earlier->k.value_or(too_many))) {
        insist("the proved code does not pass them");
    }
    const Bounds bounds = question_.job == Job::least ? seek_least(steps, start)
                                                      : seek_settled(steps, question_.r, start);
    return conclude(bounds, steps);
}

int Command::conclude(const Bounds& bounds, const Steps& steps) {
    Record record = conclusion(words_, bounds, journal_);
    if (record.verdict == Verdict::open) journal_.add_run(seconds_since_start());
    make_result(record, words_, folder_, journal_, steps);
    folder_.place();
    // a proof that is not converted yet is worth keeping; all else is in FOLDER
    if (record.verdict != Verdict::open || !steps.has_proofs()) folder_.clear_work();
    if (record.k || record.verdict == Verdict::more) print_report();
    return tell(record, bounds, steps);
}

void Command::print_report() const {
    const std::string text = read_file(folder_.file("report.txt"));
    std::fwrite(text.data(), 1, text.size(), stdout);
    if (std::fflush(stdout) != 0 || std::ferror(stdout)) {
        end_by_errno("the report is in " + folder_.given() + " and cannot be printed");
    }
}

// The last messages, and the exit status.
int Command::tell(const Record& record, const Bounds& bounds, const Steps& steps) const {
    int status = settled;
    if (record.verdict == Verdict::more) {
        say("every network for this table and M has more than " +
            switches(most_switches(question_)) + ", checked");
        status = more_than;
    } else if (bounds.upper < record.k.value_or(0)) {
        say(record.reason + " too: " + std::to_string(*record.k) + " is not the least number");
        status = fewer_found;
    } else if (record.verdict == Verdict::open) {
        status = tell_open(record, bounds, steps);
    }
    say((record.k ? "the report and the files that it comes from are in " : "the files are in ") +
        folder_.given());
    return status;
}

int Command::tell_open(const Record& record, const Bounds& bounds, const Steps& steps) const {
    std::string message = bounds.lower > 0
                              ? "every network for this table and M has at least " +
                                    switches(bounds.lower) + ", checked"
                              : "no number of switches is excluded by a checked refutation";
    const unsigned last = record.k ? *record.k - 1 : most_switches(question_);
    // settle asks about one number at a time
    const unsigned first = question_.job == Job::least ? bounds.lower : last;
    for (unsigned r = first; r <= last; r++) {
        message += "; " + std::to_string(r) + " is open: " + reason_for(r, words_, journal_);
    }
    say(message);
    bool time = steps.spent(), length = false;
    for (const Made& made : journal_.made()) {
        if (made.switches != last) continue;
        time = time || made.outcome == Outcome::time || made.outcome == Outcome::proof;
        length = length || made.outcome == Outcome::length || made.outcome == Outcome::stopped;
    }
    if (time) say("not settled; --time and --total allow more");
    if (!time && length) say("not settled; another --seed may give a shorter refutation");
    return time ? open_by_time : length ? open_by_length : failure;
}

// After an interrupt or a failure: keeps FOLDER.work where a next run can use
// it.
void Command::put_away() {
    try {
        if (!exists(journal_.name())) return;
        const std::string kept = folder_.work("kept");
        if (exists(kept) && !names_in(kept).empty()) worth_keeping_ = true;
        for (const Made& made : journal_.made()) {
            if (made.by_this_run && made.allowed > 0) worth_keeping_ = true;
        }
        if (!worth_keeping_) {
            folder_.clear_work();
            return;
        }
        remove_folder(folder_.work("run"));
        journal_.add_run(seconds_since_start());
        say("the work so far is in " + folder_.work_given() +
            "; the next run of the same request goes on with it");
    } catch (const End& end) {
        say(end.message);
    }
}

}  // namespace

int main(int argc, char** argv) {
    hold_streams();
    hold_signals();
    try {
        // with "--words" first, the words are only judged
        const bool judge = argc > 1 && std::strcmp(argv[1], "--words") == 0;
        const Words words = judge ? read_words(argc - 1, argv + 1) : read_words(argc, argv);
        return judge ? 0 : Command(words).run();
    } catch (const End& end) {
        say(end.message);
        return end.status;
    } catch (const Interrupted& interrupted) {
        return status_of(interrupted);
    } catch (const std::exception& fault) {
        say(fault.what());
        return failure;
    }
}
