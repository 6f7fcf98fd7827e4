// Turns a DRAT proof into a refutation in the form of document 01.
//
//   lrat [--limit BYTES] [--rounds N] [--keep-ids] [--progress SECONDS]
//        CLAUSES PROOF... REFUTATION
//
// CLAUSES is the clause file. The proof is that of the files PROOF, one after
// the other, each in the binary or the text form, for example clauses that were
// derived before a SAT solver started and then the solver's own proof.
// REFUTATION is the file to write. Exit status: 0 written; 1 a file is not what
// it should be, or the proof is no proof, or a file cannot be read or written;
// 2 wrong words; 3 the refutation is longer than BYTES, 16,777,215 if not given;
// 130 and 143 when ended by SIGINT and SIGTERM. REFUTATION changes only with 0.
// With --progress a line on standard error says each SECONDS how far it is.
//
// With --keep-ids each line has the id that its clause has in a solver which
// numbers its clauses one by one: C plus the clause's place, from 1, among the
// additions of the files PROOF together, where every addition counts. Clauses
// that are left out leave gaps. A clause that stands already when it is added
// again goes by its first id. The line of the empty clause has the id of the
// proof's empty clause, or the next after all additions where the proof has
// none, or that of a clause which has lost all its literals. Where an id would
// be above 999,999,999, the exit status is 1. Since ids have to rise, the lines
// stay in the proof's order: there is one pass, whatever N is, and no line for a
// pair of hints.
//
// This program is outside the proved core, and nothing rests on it: the proved
// check reads what it writes and refuses it where it errs.
//
// A pass trims the proof: it keeps the clauses that the conflict rests on, with
// hints (lrat/trim.hpp), drops what is left over in their lines
// (lrat/refutation.hpp) and, where the text is still too long, writes pairs of
// hints that many lines share as lines of their own (lrat/pairs.hpp). While the
// text is too long but a further pass may bring it below the limit, there is
// one, at most N passes in all, 6 if not given: the lines are the proof of the
// next pass, each as early as its hints allow. On five refutations of 5 to 56 MB
// the second pass made the text shorter by 20 to 45 %, the third by 8 to 15 %,
// later ones by 2 to 7 %, and pairs by 7 to 12 %.
#include <malloc.h>

#include <cstdint>
#include <cstdio>
#include <cstdlib>
#include <cstring>
#include <deque>
#include <iterator>
#include <new>
#include <string>
#include <utility>
#include <vector>

#include "lrat/clauses.hpp"
#include "lrat/files.hpp"
#include "lrat/pairs.hpp"
#include "lrat/proof.hpp"
#include "lrat/refutation.hpp"
#include "lrat/trim.hpp"

namespace {

using namespace lrat;

struct Options {
    std::size_t limit = 16777215;
    unsigned rounds = 6;
    bool keep_ids = false;
    unsigned progress = 0;  // seconds; 0 for none
    std::string clauses;
    std::vector<std::string> proofs;
    std::string refutation;
};

[[noreturn]] void usage() {
    std::fprintf(stderr,
                 "usage: lrat [--limit BYTES] [--rounds N] [--keep-ids] [--progress SECONDS] "
                 "CLAUSES PROOF... REFUTATION\n"
                 "  --keep-ids  the ids are those of the proof's clauses, numbered one by one, "
                 "in one pass\n");
    std::exit(2);
}

// The number after an option, of at most nine digits.
unsigned option_number(const char* word) {
    const std::size_t length = std::strlen(word);
    if (length == 0 || length > 9 || std::strspn(word, "0123456789") != length) usage();
    return unsigned(std::strtoul(word, nullptr, 10));
}

Options read_words(int argc, char** argv) {
    Options options;
    int at = 1;
    while (at + 1 < argc && std::strncmp(argv[at], "--", 2) == 0) {
        if (std::strcmp(argv[at], "--keep-ids") == 0) {
            options.keep_ids = true;
            at++;
            continue;
        }
        const unsigned number = option_number(argv[at + 1]);
        if (std::strcmp(argv[at], "--limit") == 0) {
            options.limit = number;
        } else if (std::strcmp(argv[at], "--rounds") == 0 && number > 0) {
            options.rounds = number;
        } else if (std::strcmp(argv[at], "--progress") == 0) {
            options.progress = number;
        } else {
            usage();
        }
        at += 2;
    }
    if (argc - at < 3) usage();
    if (options.keep_ids) options.rounds = 1;
    options.clauses = argv[at];
    options.proofs.assign(argv + at + 1, argv + argc - 1);
    options.refutation = argv[argc - 1];
    return options;
}

// ---------------------------------------------------------------------------
// Passes
// ---------------------------------------------------------------------------

// The part of a text that pairs leave at best, and that a pass leaves of the
// one before it, by what was measured.
constexpr double pairs_leave = 0.88;

double pass_leaves(unsigned pass) {
    constexpr double measured[] = {0.52, 0.86, 0.93};
    return pass < 2 + std::size(measured) ? measured[pass - 2] : 0.96;
}

class Passes {
  public:
    Passes(const Options& options, const Formula& formula)
        : options_(options), formula_(formula), progress_(options.progress), refutation_(formula) {}

    // The refutation, or an exit with 3 where it stays too long.
    const Refutation& run() {
        for (unsigned pass = 1;; pass++) {
            progress_.start_pass(pass);
            const bool trimmed = pass == 1 ? trim_proof() : trim_lines(pass);
            if (!trimmed) too_long("in", pass);
            shorten(refutation_);
            if (fits()) return refutation_;
            if (options_.keep_ids || double(refutation_.bytes()) > reach(pass)) {
                too_long("after", pass);
            }
            // the first text is the longest, and pairs of it are soon gone
            if (pass == 1 && options_.rounds > 1 && !pairs_may_do()) continue;
            refutation_ = with_shared_pairs(std::move(refutation_), progress_);
            if (fits()) return refutation_;
            if (pass >= options_.rounds) too_long("after", pass);
        }
    }

  private:
    bool fits() const { return refutation_.bytes() <= options_.limit; }

    bool pairs_may_do() const {
        return pairs_leave * double(refutation_.bytes()) <= double(options_.limit);
    }

    // The longest text of a pass that may still come below the limit. No text
    // of three times the limit was ever seen to. Where ids are kept, no pairs
    // follow, and what they would leave is room for what lines lose after the
    // trimming, which was 3 % at most.
    double reach(unsigned pass) const {
        double left = pairs_leave;
        for (unsigned next = pass + 1; next <= options_.rounds && left > 0.33; next++) {
            left *= pass_leaves(next);
        }
        return double(options_.limit) / left;
    }

    bool trim_proof() {
        std::deque<Input> files;
        std::size_t room = 0;
        for (const std::string& name : options_.proofs) {
            files.emplace_back(name);
            room += ProofReader::most_literals(files.back().bytes());
        }
        Clauses clauses(formula_, room);
        std::vector<Step> steps;
        std::vector<std::uint32_t> ids;
        {
            ProofReader reader(clauses, steps, options_.keep_ids ? &ids : nullptr);
            for (; !files.empty(); files.pop_front()) reader.read(files.front().bytes());
            reader.finish();
        }
        return trim(clauses, steps, ids, 1);
    }

    // The lines of the last pass are the proof of this one.
    bool trim_lines(unsigned pass) {
        Clauses clauses(formula_, refutation_.literal_count());
        std::vector<Step> steps;
        for (std::uint32_t line : refutation_.order_by_level()) {
            const ClauseList& lines = refutation_.lines();
            if (lines.size(line) == 0) continue;
            const std::uint32_t c = clauses.add(lines.begin(line), lines.end(line));
            steps.push_back(Step(c, false));
        }
        refutation_ = Refutation(formula_);
        return trim(clauses, steps, {}, pass);
    }

    bool trim(Clauses& clauses, std::vector<Step>& steps, const std::vector<std::uint32_t>& ids,
              unsigned pass) {
        Trimmer trimmer(formula_, clauses, steps, ids, progress_);
        if (!trimmer.run(std::size_t(reach(pass)))) return false;
        refutation_ = trimmer.refutation();
        return true;
    }

    [[noreturn]] void too_long(const char* when, unsigned pass) const {
        remove_unfinished();
        std::fprintf(stderr, "lrat: the refutation is longer than %zu bytes, given up %s pass %u\n",
                     options_.limit, when, pass);
        std::exit(3);
    }

    const Options& options_;
    const Formula& formula_;
    Progress progress_;
    Refutation refutation_;
};

void convert(const Options& options) {
    const Formula formula = read_formula(Input(options.clauses).bytes());
    Output output(options.refutation);
    Passes passes(options, formula);
    passes.run().write(output);
    output.finish();
}

}  // namespace

int main(int argc, char** argv) {
    const Options options = read_words(argc, argv);
    // Long lists that are freed go back to the system at once: passes have
    // long ones after each other. Left alone, malloc comes to keep them.
    mallopt(M_MMAP_THRESHOLD, 1 << 17);
    mallopt(M_TRIM_THRESHOLD, 1 << 17);
    try {
        convert(options);
    } catch (const std::bad_alloc&) {
        stop("out of memory");
    }
    return 0;
}
