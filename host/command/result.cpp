// Results. The files of a folder, as far as they exist:
//
//   request.txt, answer.txt    the request with k switches and its network
//   refutation.txt             "least": the refutation of k - 1 switches
//   report.txt, network.svg    the report of these three, and its picture
//   lower-request.txt, lower-refutation.txt
//                              "more" and "open": the refutation that the lower
//                              bound rests on, with the request that it refutes
//   journal.txt                "open": the attempts, for a next run
//   record.json                what was asked and found
//
// Every verdict is the proved code's on the very files that are left: the
// report comes from settle or check, run on the copies in FOLDER.work/result.
#include "result.hpp"

#include <algorithm>

#include "files.hpp"
#include "process.hpp"
#include "say.hpp"

unsigned most_switches(const Question& question) {
    return question.job == Job::settle ? question.r : too_many - 1;
}

std::string reason_for(unsigned r, const Words& words, const Journal& journal) {
    double seconds = -1;
    std::uint64_t limit = 0;
    bool too_long = false, proof = false, failed = false;
    for (const Made& made : journal.made()) {
        if (made.switches != r) continue;
        if (made.outcome == Outcome::time) seconds = std::max(seconds, made.allowed);
        if (made.outcome == Outcome::length || made.outcome == Outcome::stopped) {
            too_long = true;
            limit = std::max(limit, made.limit);
        }
        proof = proof || made.outcome == Outcome::proof;
        failed = failed || made.outcome == Outcome::failed;
    }
    std::string reason;
    const auto add = [&](const std::string& part) {
        reason += (reason.empty() ? "" : ", ") + part;
    };
    if (seconds >= 0) add("no answer in " + std::to_string(unsigned(seconds)) + " seconds");
    if (proof) add("a proof is not converted yet");
    if (too_long) {
        add("the refutation is over the limit of " + std::to_string(limit) + " bytes");
    }
    if (failed) add("an attempt failed");
    if (reason.empty() && words.total) {
        add("no answer in " + std::to_string(*words.total) + " seconds in all");
    }
    return reason.empty() ? "no attempt is left" : reason;
}

Record conclusion(const Words& words, const Bounds& bounds, const Journal& journal) {
    const Question& question = words.question;
    const unsigned most = most_switches(question);
    const bool settle = question.job == Job::settle;
    Record record;
    record.lower = bounds.lower;
    if (bounds.network()) record.k = settle ? question.r : bounds.upper;
    if (bounds.lower > most) {
        record.verdict = Verdict::more;
    } else if (bounds.network() && bounds.lower == *record.k) {
        record.verdict = Verdict::least;
    } else if (settle && bounds.upper < question.r) {
        record.reason = "there is a network of " + switches(bounds.upper);
    } else {
        const unsigned open = record.k ? *record.k - 1 : most;
        record.reason = reason_for(open, words, journal);
    }
    return record;
}

namespace {

// Has settle or check write report.txt in a folder, and wants this status.
void report(const Call& call, int status) {
    if (run(call).status != status) {
        throw End{failure,
                  "the proved code does not repeat its verdict on the files of the result"};
    }
}

void make_report(const Record& record, const Question& question, const std::string& result) {
    Call call;
    call.output = result + "report.txt";
    if (record.k) {
        call.words = {tool("settle"), result + "request.txt", result + "answer.txt",
                      result + "refutation.txt"};
        report(call, record.verdict == Verdict::least ? 0 : 3);
        const Call draw{{tool("draw"), question.table, std::to_string(question.m)},
                        result + "report.txt",
                        result + "network.svg"};
        if (run(draw).status != 0) throw End{failure, "the picture is not drawn"};
    } else if (record.verdict == Verdict::more) {
        call.words = {tool("check"), result + "lower-request.txt", result + "lower-refutation.txt"};
        report(call, 0);
    }
}

std::string solver_version(const Folder& folder) {
    const std::string output = folder.work("run/version");
    run({{"cadical", "--version"}, "/dev/null", output});
    const std::string text = read_file(output);
    return text.substr(0, text.find('\n'));
}

}  // namespace

void make_result(Record& record, const Words& words, const Folder& folder, const Journal& journal,
                 const Steps& steps) {
    const Question& question = words.question;
    const std::string result = folder.work("result/");
    make_folder(folder.work("result"));
    if (record.k) {
        write_file(result + "request.txt", question.line(*record.k));
        copy_file(steps.network_file(*record.k), result + "answer.txt");
    }
    if (record.lower > 0) {
        const std::string refutation = steps.refutation_file(record.lower - 1);
        const bool least = record.verdict == Verdict::least;
        if (!least) write_file(result + "lower-request.txt", question.line(record.lower - 1));
        copy_file(refutation, result + (least ? "refutation.txt" : "lower-refutation.txt"));
        record.refutation_bytes = size_of(refutation);
    }
    make_report(record, question, result);
    if (record.verdict == Verdict::open) copy_file(journal.name(), result + "journal.txt");
    for (const std::string& name : names_in(folder.work("result"))) {
        record.files[name] = hash_of_file(result + name);
    }
    write_file(result + "record.json", record_text(record, words, journal, solver_version(folder)));
    // what the programs wrote is not on the disk yet
    for (const char* name : {"report.txt", "network.svg"}) {
        if (exists(result + name)) sync_file(result + name);
    }
}

std::string fault_of(const Record& record, const Question& question, const Folder& folder) {
    for (const auto& [name, hash] : record.files) {
        if (!exists(folder.file(name))) return name + " is missing";
        if (hash_of_file(folder.file(name)) != hash) return name + " is not the one that was left";
    }
    if (record.verdict == Verdict::open) return "";
    Call call;
    call.output = folder.work("run/report");
    std::string name, line;
    if (record.verdict == Verdict::least) {
        name = "request.txt";
        line = question.line(record.k.value_or(0));
        call.words = {tool("settle"), folder.file(name), folder.file("answer.txt"),
                      folder.file("refutation.txt")};
    } else {
        name = "lower-request.txt";
        line = question.line(most_switches(question));
        call.words = {tool("check"), folder.file(name), folder.file("lower-refutation.txt")};
    }
    if (!exists(folder.file(name)) || read_file(folder.file(name)) != line) {
        return name + " is not the request";
    }
    if (run(call).status != 0) return "the proved code does not say the verdict again";
    if (!exists(folder.file("report.txt")) ||
        read_file(call.output) != read_file(folder.file("report.txt"))) {
        return "report.txt is not the report";
    }
    return "";
}
