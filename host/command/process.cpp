// Runs programs, one at a time, and sees interrupts.
//
// SIGINT, SIGTERM and SIGHUP are blocked and taken with sigtimedwait, together
// with the SIGCHLD that tells of a program's end: no handler runs anywhere, so
// no step is cut in two, and none of the signals is missed between a test and
// a wait. A signal that was ignored when the command started, by nohup for
// example, stays ignored.
//
// A program that is told to stop gets SIGTERM, and SIGKILL where that does not
// end it. It also gets SIGKILL from the system when the command dies without a
// chance to do anything, so that no solver is left behind.
#include "process.hpp"

#include <fcntl.h>
#include <sys/prctl.h>
#include <sys/wait.h>
#include <unistd.h>

#include <cerrno>
#include <chrono>
#include <csignal>
#include <cstdio>
#include <cstring>

#include "say.hpp"

namespace {

constexpr long poll_nanoseconds = 200'000'000;
constexpr double patience = 2;  // seconds from SIGTERM to SIGKILL

sigset_t held;  // the signals that are blocked and waited for

const auto start = std::chrono::steady_clock::now();

// Waits for a signal of `held`, at most so long; its number, or 0.
int wait_signal(long nanoseconds) {
    const timespec pause = {0, nanoseconds};
    const int signal = sigtimedwait(&held, nullptr, &pause);
    return signal > 0 ? signal : 0;
}

bool redirect(const std::string& name, int flags, int to) {
    const int file = open(name.c_str(), flags, 0666);
    if (file >= 0 && dup2(file, to) == to) return true;
    dprintf(STDERR_FILENO, "nordkelch: cannot open %s: %s\n", name.c_str(), std::strerror(errno));
    return false;
}

// The child's side of starting a program: 127 where it cannot be started.
[[noreturn]] void become(const Call& call, pid_t parent) {
    prctl(PR_SET_PDEATHSIG, SIGKILL);
    if (getppid() != parent) _exit(127);  // it died before the line above
    sigset_t none;
    sigemptyset(&none);
    sigprocmask(SIG_SETMASK, &none, nullptr);
    signal(SIGPIPE, SIG_DFL);
    constexpr int make = O_WRONLY | O_CREAT | O_TRUNC;
    if (!redirect(call.input, O_RDONLY, STDIN_FILENO)) _exit(127);
    if (!redirect(call.output, make, STDOUT_FILENO)) _exit(127);
    if (!call.errors.empty() && !redirect(call.errors, make, STDERR_FILENO)) _exit(127);
    std::vector<char*> words;
    for (const std::string& word : call.words) words.push_back(const_cast<char*>(word.c_str()));
    words.push_back(nullptr);
    execvp(words[0], words.data());
    dprintf(STDERR_FILENO, "nordkelch: cannot run %s: %s\n", words[0], std::strerror(errno));
    _exit(127);
}

double since(std::chrono::steady_clock::time_point then) {
    return std::chrono::duration<double>(std::chrono::steady_clock::now() - then).count();
}

// Ends a child that may still run, and takes its status.
int stop(pid_t child) {
    kill(child, SIGTERM);
    const auto told = std::chrono::steady_clock::now();
    int status = 0;
    while (waitpid(child, &status, WNOHANG) == 0) {
        if (since(told) > patience) {
            kill(child, SIGKILL);
            waitpid(child, &status, 0);
            break;
        }
        usleep(10'000);
    }
    return status;
}

}  // namespace

void hold_streams() {
    for (const int number : {STDIN_FILENO, STDOUT_FILENO, STDERR_FILENO}) {
        if (fcntl(number, F_GETFD) >= 0) continue;
        // the lowest number that is free is this one; a report that is written to
        // a closed standard output has to fail, so that can only be read
        open("/dev/null", number == STDOUT_FILENO ? O_RDONLY : O_RDWR);
    }
}

void hold_signals() {
    signal(SIGPIPE, SIG_IGN);  // a closed standard output is told as a failed write
    signal(SIGCHLD, SIG_DFL);
    sigemptyset(&held);
    sigaddset(&held, SIGCHLD);
    for (const int number : {SIGHUP, SIGINT, SIGTERM}) {
        struct sigaction before;
        sigaction(number, nullptr, &before);
        if (before.sa_handler != SIG_IGN) sigaddset(&held, number);
    }
    sigprocmask(SIG_BLOCK, &held, nullptr);
}

void answer_signals() {
    for (int signal; (signal = wait_signal(0)) != 0;) {
        if (signal != SIGCHLD) throw Interrupted{signal};
    }
}

Ended run(const Call& call, const Watch& watch) {
    answer_signals();
    const auto began = std::chrono::steady_clock::now();
    const pid_t parent = getpid();
    const pid_t child = fork();
    if (child < 0) end_by_errno("cannot start " + call.words[0]);
    if (child == 0) become(call, parent);
    Ended ended;
    int status = 0;
    while (waitpid(child, &status, WNOHANG) == 0) {
        const int signal = wait_signal(poll_nanoseconds);
        if (signal != 0 && signal != SIGCHLD) {
            stop(child);
            throw Interrupted{signal};
        }
        if (signal == 0 && watch && watch(since(began))) {
            ended.stopped = true;
            status = stop(child);
            break;
        }
    }
    ended.seconds = since(began);
    ended.status = WIFEXITED(status) ? WEXITSTATUS(status) : 128 + WTERMSIG(status);
    return ended;
}

double seconds_since_start() { return since(start); }
