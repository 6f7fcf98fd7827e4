// The files that lrat reads and writes, how it ends, and what it tells while it
// runs.
//
// An input is mapped where it is a regular file, so that a long proof takes no
// memory of its own once it is read, and read to its end where it is a pipe.
//
// The output is written beside its place, under a name of its own, and moved
// there when it is complete. It is opened before the work starts, so that a
// place that cannot be written is told at once. Every other end of the program
// removes it: a message with status 1, a refusal, an interrupt. A place that is
// there and is no regular file, a device for example, is written directly.
#ifndef NORDKELCH_LRAT_FILES_HPP
#define NORDKELCH_LRAT_FILES_HPP

#include <fcntl.h>
#include <sys/mman.h>
#include <sys/stat.h>
#include <unistd.h>

#include <cerrno>
#include <charconv>
#include <chrono>
#include <csignal>
#include <cstdint>
#include <cstdio>
#include <cstdlib>
#include <cstring>
#include <string>
#include <string_view>

namespace lrat {

// The name of an output that is not complete; empty where there is none. A
// fixed array, since an interrupt may come at any time and reads it.
inline char unfinished[4096];

inline void remove_unfinished() {
    if (unfinished[0] != 0) unlink(unfinished);
    unfinished[0] = 0;
}

[[noreturn]] inline void stop(const std::string& message) {
    remove_unfinished();
    std::fprintf(stderr, "lrat: %s\n", message.c_str());
    std::exit(1);
}

// Ends with a message that names the file and the cause, which is in errno.
[[noreturn]] inline void stop(const std::string& what, const std::string& name) {
    stop(what + " " + name + ": " + std::strerror(errno));
}

// SIGINT ends with 130, SIGTERM with 143. unlink and _exit are among the few
// calls that are allowed here.
inline void end_by_signal(int signal) {
    if (unfinished[0] != 0) unlink(unfinished);
    _exit(128 + signal);
}

// Also, a file that may not grow and a pipe that nobody reads make a call fail,
// with a cause to tell, and do not end the program.
inline void catch_signals() {
    struct sigaction action = {};
    action.sa_handler = end_by_signal;
    sigfillset(&action.sa_mask);
    sigaction(SIGINT, &action, nullptr);
    sigaction(SIGTERM, &action, nullptr);
    std::signal(SIGXFSZ, SIG_IGN);
    std::signal(SIGPIPE, SIG_IGN);
}

// The bytes of a file.
class Input {
  public:
    explicit Input(const std::string& name) {
        const int file = open(name.c_str(), O_RDONLY | O_CLOEXEC);
        struct stat about;
        if (file < 0 || fstat(file, &about) != 0) stop("cannot read", name);
        if (S_ISREG(about.st_mode) && about.st_size > 0) {
            length_ = std::size_t(about.st_size);
            place_ = mmap(nullptr, length_, PROT_READ, MAP_PRIVATE, file, 0);
            if (place_ == MAP_FAILED) stop("cannot read", name);
            madvise(place_, length_, MADV_SEQUENTIAL);
        } else {
            // a directory fails here, with its cause
            read_all(file, name);
        }
        close(file);
    }
    Input(const Input&) = delete;
    Input& operator=(const Input&) = delete;
    ~Input() {
        if (place_ != nullptr) munmap(place_, length_);
    }

    std::string_view bytes() const {
        if (place_ == nullptr) return text_;
        return {static_cast<const char*>(place_), length_};
    }

  private:
    void read_all(int file, const std::string& name) {
        char block[65536];
        for (;;) {
            const ssize_t count = read(file, block, sizeof block);
            if (count < 0 && errno == EINTR) continue;
            if (count < 0) stop("cannot read", name);
            if (count == 0) return;
            text_.append(block, std::size_t(count));
        }
    }

    void* place_ = nullptr;
    std::size_t length_ = 0;
    std::string text_;
};

// The file to write.
class Output {
  public:
    explicit Output(const std::string& name) : name_(name), part_(name) {
        struct stat about;
        const bool direct = stat(name.c_str(), &about) == 0 && !S_ISREG(about.st_mode);
        int flags = O_WRONLY | O_CLOEXEC;
        if (!direct) {
            part_ += ".part" + std::to_string(getpid());
            if (part_.size() >= sizeof unfinished) {
                errno = ENAMETOOLONG;
                stop("cannot write", name_);
            }
            std::memcpy(unfinished, part_.c_str(), part_.size() + 1);
            flags |= O_CREAT | O_TRUNC;
        }
        // not before the name is complete, which the handler reads
        catch_signals();
        file_ = open(part_.c_str(), flags, 0666);
        if (file_ < 0) fail();
    }
    Output(const Output&) = delete;
    Output& operator=(const Output&) = delete;
    ~Output() {
        if (file_ >= 0) close(file_);
        remove_unfinished();
    }

    void put(std::string_view text) {
        buffer_ += text;
        if (buffer_.size() >= 1 << 16) flush();
    }

    // A number with a space before it.
    void put_number(std::int64_t number) {
        char digits[24];
        const auto end = std::to_chars(digits, digits + sizeof digits, number).ptr;
        buffer_ += ' ';
        put({digits, std::size_t(end - digits)});
    }

    // All is written: the file takes its place.
    void finish() {
        flush();
        const int file = file_;
        file_ = -1;
        if (close(file) != 0) fail();
        if (part_ != name_ && std::rename(part_.c_str(), name_.c_str()) != 0) fail();
        unfinished[0] = 0;
    }

  private:
    [[noreturn]] void fail() { stop("cannot write", name_); }

    void flush() {
        std::size_t done = 0;
        while (done < buffer_.size()) {
            const ssize_t count = write(file_, buffer_.data() + done, buffer_.size() - done);
            if (count < 0 && errno == EINTR) continue;
            if (count < 0) fail();
            done += std::size_t(count);
        }
        buffer_.clear();
    }

    std::string name_;
    std::string part_;
    int file_ = -1;
    std::string buffer_;
};

// Tells on standard error how far the work is, each so many seconds; never for
// 0 seconds.
class Progress {
  public:
    explicit Progress(unsigned seconds)
        : between_(seconds), next_(std::chrono::steady_clock::now() + between_) {}

    void start_pass(unsigned pass) { pass_ = pass; }

    void tell(const char* what, std::size_t done, std::size_t all) {
        if (between_.count() == 0 || (++calls_ % 16) != 0) return;
        const auto now = std::chrono::steady_clock::now();
        if (now < next_) return;
        next_ = now + between_;
        std::fprintf(stderr, "lrat: pass %u, %s, %zu %%\n", pass_, what,
                     all == 0 ? 100 : std::size_t(100.0 * double(done) / double(all)));
    }

  private:
    std::chrono::seconds between_;
    std::chrono::steady_clock::time_point next_;
    unsigned pass_ = 1;
    unsigned calls_ = 0;
};

}  // namespace lrat

#endif
