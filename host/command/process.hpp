// Programs that the command runs, and signals.
#ifndef PROCESS_HPP
#define PROCESS_HPP

#include <functional>
#include <string>
#include <vector>

// A program with its words, and the files that stand for its standard streams.
struct Call {
    std::vector<std::string> words;
    std::string input = "/dev/null";
    std::string output = "/dev/null";
    std::string errors = "";  // empty: the command's own standard error
};

struct Ended {
    int status = 0;        // its exit status, or 128 and the signal's number
    bool stopped = false;  // told to stop by the watch
    double seconds = 0;
};

// Asked a few times each second while a program runs, with the seconds since it
// started; true stops the program.
using Watch = std::function<bool(double seconds)>;

// Has something behind each standard stream, so that no other file that is
// opened takes the place of a closed one and is written to by mistake.
void hold_streams();

// From here on an interrupt is seen by run() and by answer_signals() alone.
void hold_signals();

// Throws Interrupted where a signal has come.
void answer_signals();

// Runs a program to its end. Throws Interrupted, after the program has ended,
// where a signal comes meanwhile.
Ended run(const Call& call, const Watch& watch = nullptr);

// Seconds since the command started.
double seconds_since_start();

#endif
