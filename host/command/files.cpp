// Files, read and written whole. A write is followed by fsync and tested at
// every step, so that a full disk is told by name and cause and never leaves a
// file that looks complete.
#include "files.hpp"

#include <fcntl.h>
#include <sys/stat.h>
#include <sys/statvfs.h>
#include <unistd.h>

#include <algorithm>
#include <cerrno>
#include <cstdio>
#include <filesystem>
#include <system_error>

#include "say.hpp"
#include "sha256.hpp"

namespace {

constexpr std::uint64_t low_space = 64 * 1024;

// An open file, closed when it goes out of scope.
class File {
  public:
    File(const std::string& name, int flags) : name_(name) {
        number_ = open(name.c_str(), flags | O_CLOEXEC, 0666);
        if (number_ < 0) end_by_errno("cannot open " + name);
    }
    File(const File&) = delete;
    File& operator=(const File&) = delete;
    ~File() { close(number_); }

    // The next bytes, at most as many as the part has place for.
    std::size_t read(char* part, std::size_t length) {
        const ssize_t got = ::read(number_, part, length);
        if (got < 0) end_by_errno("cannot read " + name_);
        return std::size_t(got);
    }
    void write(const char* part, std::size_t length) {
        while (length > 0) {
            const ssize_t put = ::write(number_, part, length);
            if (put < 0) end_by_errno("cannot write " + name_);
            part += put;
            length -= std::size_t(put);
        }
    }
    void sync() {
        if (fsync(number_) != 0) end_by_errno("cannot write " + name_);
    }

  private:
    std::string name_;
    int number_;
};

// Hands the bytes of a file, part after part, to a function.
template <typename Take>
void for_parts(const std::string& name, Take take) {
    // without O_NONBLOCK the opening of a pipe waits for a writer
    File file(name, O_RDONLY | O_NONBLOCK);
    struct stat about;
    if (stat(name.c_str(), &about) == 0 && !S_ISREG(about.st_mode)) {
        throw End{failure, "cannot read " + name + ": it is not a regular file"};
    }
    char part[65536];
    for (std::size_t got; (got = file.read(part, sizeof part)) > 0;) take(part, got);
}

}  // namespace

std::string read_file(const std::string& name) {
    std::string text;
    for_parts(name, [&](const char* part, std::size_t length) { text.append(part, length); });
    return text;
}

void write_file(const std::string& name, const std::string& text) {
    File file(name, O_WRONLY | O_CREAT | O_TRUNC);
    file.write(text.data(), text.size());
    file.sync();
}

void append_file(const std::string& name, const std::string& text) {
    File file(name, O_WRONLY | O_CREAT | O_APPEND);
    file.write(text.data(), text.size());
    file.sync();
}

void copy_file(const std::string& from, const std::string& to) {
    File file(to, O_WRONLY | O_CREAT | O_TRUNC);
    for_parts(from, [&](const char* part, std::size_t length) { file.write(part, length); });
    file.sync();
}

void sync_file(const std::string& name) { File(name, O_RDONLY).sync(); }

void make_folder(const std::string& name) {
    if (mkdir(name.c_str(), 0777) != 0) end_by_errno("cannot make the folder " + name);
}

void sync_folder(const std::string& name) { File(name, O_RDONLY | O_DIRECTORY).sync(); }

void rename_file(const std::string& from, const std::string& to) {
    if (std::rename(from.c_str(), to.c_str()) != 0) {
        end_by_errno("cannot rename " + from + " to " + to);
    }
}

std::vector<std::string> names_in(const std::string& folder) {
    std::vector<std::string> names;
    std::error_code fault;
    std::filesystem::directory_iterator entry(folder, fault), end;
    for (; !fault && entry != end; entry.increment(fault)) {
        names.push_back(entry->path().filename().string());
    }
    if (fault) throw End{failure, "cannot read the folder " + folder + ": " + fault.message()};
    std::sort(names.begin(), names.end());
    return names;
}

std::string hash_of_file(const std::string& name) {
    Sha256 hash;
    for_parts(name, [&](const char* part, std::size_t length) { hash.add(part, length); });
    return hash.digits();
}

bool exists(const std::string& name) {
    struct stat about;
    return lstat(name.c_str(), &about) == 0;
}

std::uint64_t size_of(const std::string& name) {
    struct stat about;
    return stat(name.c_str(), &about) == 0 ? std::uint64_t(about.st_size) : 0;
}

void remove_file(const std::string& name) { unlink(name.c_str()); }

void remove_folder(const std::string& name) {
    std::error_code fault;
    std::filesystem::remove_all(name, fault);
}

bool disk_is_full(const std::string& folder) {
    struct statvfs about;
    // some file systems do not say how large they are
    if (statvfs(folder.c_str(), &about) != 0 || about.f_blocks == 0) return false;
    return std::uint64_t(about.f_bavail) * about.f_frsize < low_space;
}
