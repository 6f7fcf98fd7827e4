// Derives clauses from a request's own, before a solver starts.
//
//   lemmas plan TABLE R M
//   lemmas derive FAMILY TABLE R M CLAUSES DERIVATION LONGER
//
// A solver's refutation of a request's clauses is often too long to be read, or
// does not come at all. What a person would say first, such as "some switch
// carries this literal", costs it millions of steps. Here such clauses are
// derived, each by unit propagation from document 01's clauses and those before
// it: no clause is assumed and no variable is new, so the derivation followed by
// the solver's proof is a proof for the clause file as it stands. Nothing rests on
// this program: the proved check reads what comes of it.
//
// plan prints the attempts for a request, the cheapest first, one on a line:
// "FAMILY alone", where the derivation is a whole refutation, or "FAMILY solver"
// and the options for cadical. derive reads the clause file CLAUSES, writes the
// derivation to DERIVATION, as the text of a DRAT proof, and to LONGER the clauses
// with the lemmas after them, for the solver; LONGER is not written where the
// derivation ends with the empty clause.
//
// Exit status: 0 done; 1 a file cannot be read or written; 2 wrong words; 3 the
// family has nothing for this request, and nothing is written.
#include <sys/stat.h>

#include <cerrno>
#include <cstdio>
#include <cstdlib>
#include <cstring>
#include <fstream>
#include <iterator>
#include <string>

#include "families.hpp"

namespace {

using namespace lemmas;

[[noreturn]] void usage() {
    std::fprintf(stderr,
                 "usage: lemmas plan TABLE R M\n"
                 "       lemmas derive FAMILY TABLE R M CLAUSES DERIVATION LONGER\n");
    std::exit(2);
}

[[noreturn]] void fail(const char* what, const char* name) {
    std::fprintf(stderr, "lemmas: cannot %s %s: %s\n", what, name, std::strerror(errno));
    std::exit(1);
}

int digit(const char* word) {
    if (word[0] < '0' || word[0] > '7' || word[1] != 0) usage();
    return word[0] - '0';
}

Formula formula_of(char** words) {
    const std::string table = words[0];
    const std::size_t size = table.size();
    if (size != 2 && size != 4 && size != 8 && size != 16) usage();
    if (table.find_first_not_of("01-") != table.npos) usage();
    return Formula(table, digit(words[1]), digit(words[2]));
}

void put(std::string& text, const std::vector<Clause>& clauses) {
    for (const Clause& clause : clauses) {
        for (int literal : clause) text += std::to_string(literal) + " ";
        text += "0\n";
    }
}

void write(const char* name, const std::string& text) {
    std::FILE* file = std::fopen(name, "wb");
    if (file == nullptr) fail("write", name);
    const bool whole = std::fwrite(text.data(), 1, text.size(), file) == text.size();
    if (std::fclose(file) != 0 || !whole) {
        const int cause = errno;
        // half a file is of no use; what is no file, a device say, stays
        struct stat about;
        if (stat(name, &about) == 0 && S_ISREG(about.st_mode)) std::remove(name);
        errno = cause;
        fail("write", name);
    }
}

// The clause file with lemmas after its clauses.
std::string longer(const char* name, const std::vector<Clause>& given) {
    std::ifstream file(name, std::ios::binary);
    if (!file) fail("read", name);
    const std::string text{std::istreambuf_iterator<char>(file), std::istreambuf_iterator<char>()};
    int variables = 0, clauses = 0, length = 0;
    if (std::sscanf(text.c_str(), "p cnf %d %d\n%n", &variables, &clauses, &length) != 2 ||
        length == 0) {
        std::fprintf(stderr, "lemmas: %s has no line \"p cnf V C\"\n", name);
        std::exit(1);
    }
    std::string result = "p cnf " + std::to_string(variables) + " " +
                         std::to_string(std::size_t(clauses) + given.size()) + "\n" +
                         text.substr(std::size_t(length));
    put(result, given);
    return result;
}

void print_plan(const Formula& formula) {
    for (const Attempt& attempt : plan(formula)) {
        std::printf("%s %s%s%s\n", attempt.family.c_str(), attempt.alone ? "alone" : "solver",
                    attempt.options.empty() ? "" : " ", attempt.options.c_str());
    }
}

}  // namespace

int main(int argc, char** argv) {
    const std::string command = argc > 1 ? argv[1] : "";
    if (command == "plan" && argc == 5) {
        print_plan(formula_of(argv + 2));
    } else if (command == "derive" && argc == 9) {
        const Formula formula = formula_of(argv + 3);
        Derivation derivation(formula);
        switch (derive(derivation, argv[2])) {
            case Derived::done:
                break;
            case Derived::nothing:
                return 3;
            case Derived::unknown:
                usage();
        }
        std::string text;
        put(text, derivation.steps());
        write(argv[7], text);
        if (!derivation.is_refutation()) write(argv[8], longer(argv[6], derivation.lemmas()));
    } else {
        usage();
    }
    return std::fflush(stdout) == 0 ? 0 : 1;
}
