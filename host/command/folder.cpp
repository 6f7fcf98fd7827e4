// Folders: made or refused before any work starts, and changed only whole.
//
// The result is made complete in FOLDER.work/result and takes FOLDER's place by
// a single rename: over an empty folder, or in exchange with the old one. So at
// no time is FOLDER half of one result and half of another. Files in the old
// folder that are not the command's are moved to the new one afterwards; where
// that is cut off, the next run does it.
//
// FOLDER.work has a journal, `kept` with networks, refutations and proofs for a
// next run, `run` with files of the step that runs, and `result`. The lock is
// on the folder itself: the system drops it when the command ends, however it
// ends. A run that has waited for it may hold a folder that was removed
// meanwhile, so the name is looked up again afterwards.
#include "folder.hpp"

#include <fcntl.h>
#include <sys/file.h>
#include <sys/stat.h>
#include <unistd.h>

#include <algorithm>
#include <cerrno>
#include <cstdio>
#include <cstdlib>
#include <iterator>

#include "files.hpp"
#include "say.hpp"

namespace {

const char* const own_files[] = {"request.txt",          "answer.txt",  "refutation.txt",
                                 "report.txt",           "network.svg", "lower-request.txt",
                                 "lower-refutation.txt", "journal.txt", "record.json"};

bool is_own(const std::string& name) {
    return std::find(std::begin(own_files), std::end(own_files), name) != std::end(own_files);
}

// The path from the root, without links; empty where there is none.
std::string real(const std::string& name) {
    char* found = realpath(name.c_str(), nullptr);
    const std::string path = found ? found : "";
    std::free(found);
    return path;
}

// Whether both names are of the same folder.
bool same(const struct stat& one, const struct stat& other) {
    return one.st_dev == other.st_dev && one.st_ino == other.st_ino;
}

}  // namespace

Folder::Folder(const std::string& given) : given_(given) {
    while (given_.size() > 1 && given_.back() == '/') given_.pop_back();
}

void Folder::take() {
    find();
    work_ = path_ + ".work";
    lock();
    // what a run that was cut off while it changed the folders has left
    const bool known = exists(work("journal"));
    if (known && !exists(path_) && exists(work("old"))) rename_file(work("old"), path_);
    if (!exists(path_)) {
        make_folder(path_);
        made_.push_back(path_);
    }
    test_access();
    if (known) {
        carry_over(work("old"));
        carry_over(work("result"));
    }
}

Folder::~Folder() {
    // the folders first, while no other run can hold them
    for (auto folder = made_.rbegin(); folder != made_.rend(); ++folder) rmdir(folder->c_str());
    if (lock_ >= 0) {
        rmdir(work_.c_str());
        close(lock_);
    }
}

// Where FOLDER is; its parents are made where they are not there.
void Folder::find() {
    const std::string& name = given_;
    struct stat about;
    if (stat(name.c_str(), &about) == 0) {
        if (!S_ISDIR(about.st_mode)) throw End{failure, given_ + " is there and is not a folder"};
        path_ = real(name);
        if (path_.empty()) end_by_errno("cannot use the folder " + given_);
    } else if (errno != ENOENT) {
        end_by_errno("cannot use the folder " + given_);
    } else if (exists(name)) {
        throw End{failure, given_ + " is a symbolic link to nothing"};
    } else {
        const std::size_t slash = name.rfind('/');
        const std::string parent = slash == name.npos ? "." : name.substr(0, slash + 1);
        const std::string last = slash == name.npos ? name : name.substr(slash + 1);
        make_parents(parent);
        if (last == "." || last == "..") throw End{failure, given_ + " is not there"};
        const std::string above = real(parent);
        if (above.empty()) end_by_errno("cannot use the folder " + parent);
        path_ = (above == "/" ? "" : above) + "/" + last;
    }
    const std::string here = real(".") + "/";
    if (here.rfind(path_ == "/" ? path_ : path_ + "/", 0) == 0) {
        throw End{failure, given_ + " is the working folder, or contains it"};
    }
    parent_ = path_.substr(0, std::max<std::size_t>(path_.rfind('/'), 1));
}

void Folder::make_parents(const std::string& parent) {
    std::string name = parent;
    while (name.size() > 1 && name.back() == '/') name.pop_back();
    struct stat about;
    if (stat(name.c_str(), &about) == 0 && S_ISDIR(about.st_mode)) return;
    const std::size_t slash = name.rfind('/');
    if (slash != name.npos && slash > 0) make_parents(name.substr(0, slash));
    if (mkdir(name.c_str(), 0777) == 0) {
        made_.push_back(name);
    } else if (errno != EEXIST) {  // another run may have made it just now
        end_by_errno("cannot make the folder " + name);
    }
}

void Folder::lock() {
    for (;;) {
        if (mkdir(work_.c_str(), 0777) != 0 && errno != EEXIST) {
            end_by_errno("cannot make the folder " + work_given());
        }
        const int opened = open(work_.c_str(), O_RDONLY | O_DIRECTORY | O_NOFOLLOW | O_CLOEXEC);
        if (opened < 0 && errno == ENOENT) continue;
        if (opened < 0) end_by_errno("cannot use " + work_given() + " as a folder");
        if (flock(opened, LOCK_EX | LOCK_NB) != 0) {
            const int fault = errno;
            close(opened);
            if (fault == EWOULDBLOCK) {
                throw End{failure, "another run is at work on " + given_};
            }
            errno = fault;
            end_by_errno("cannot lock " + work_given());
        }
        struct stat held, named;
        if (fstat(opened, &held) == 0 && lstat(work_.c_str(), &named) == 0 && same(held, named)) {
            lock_ = opened;
            return;
        }
        close(opened);  // it was removed before the lock was taken
    }
}

// Whether the result can take FOLDER's place later.
void Folder::test_access() const {
    struct stat about, above;
    if (stat(path_.c_str(), &about) != 0) end_by_errno("cannot use the folder " + given_);
    if (stat(parent_.c_str(), &above) != 0) end_by_errno("cannot use the folder " + parent_);
    if (!S_ISDIR(about.st_mode)) throw End{failure, given_ + " is there and is not a folder"};
    if (about.st_dev != above.st_dev) {
        throw End{failure, given_ + " is a mounted file system; name a folder within it"};
    }
    for (const std::string& folder : {path_, parent_, work_}) {
        if (access(folder.c_str(), R_OK | W_OK | X_OK) != 0) {
            end_by_errno("cannot write into the folder " + folder);
        }
    }
}

bool Folder::empty() const { return names_in(path_).empty(); }

bool Folder::work_empty() const { return names_in(work_).empty(); }

void Folder::test_files() const {
    for (const char* name : own_files) {
        struct stat about;
        if (lstat(file(name).c_str(), &about) == 0 && !S_ISREG(about.st_mode)) {
            throw End{failure, given_ + "/" + name + " is there and is not a regular file"};
        }
    }
}

void Folder::clear_work() {
    for (const char* name : {"result", "old"}) {
        carry_over(work(name));
        remove_folder(work(name));
    }
    for (const char* name : {"run", "kept"}) remove_folder(work(name));
    remove_file(work("journal"));  // last: while it is there the rest is known to be ours
}

void Folder::open_work() {
    remove_folder(work("run"));
    remove_folder(work("result"));
    make_folder(work("run"));
    if (!exists(work("kept"))) make_folder(work("kept"));
}

// Moves what is not the command's from an old folder to the new one.
void Folder::carry_over(const std::string& from) {
    if (!exists(from)) return;
    for (const std::string& name : names_in(from)) {
        if (is_own(name)) continue;
        if (exists(file(name))) {
            throw End{failure, "cannot move " + from + "/" + name + " to " + given_ +
                                   ": there is a file of this name"};
        }
        rename_file(from + "/" + name, file(name));
    }
}

void Folder::place() {
    const std::string result = work("result");
    struct stat about;
    if (stat(path_.c_str(), &about) == 0) chmod(result.c_str(), about.st_mode & 07777);
    sync_folder(result);
    if (std::rename(result.c_str(), path_.c_str()) != 0) {
        if (errno != ENOTEMPTY && errno != EEXIST) {
            end_by_errno("cannot rename the result to " + given_);
        }
        std::string old = result;
        if (renameat2(AT_FDCWD, result.c_str(), AT_FDCWD, path_.c_str(), RENAME_EXCHANGE) != 0) {
            // a file system without exchange
            old = work("old");
            rename_file(path_, old);
            rename_file(result, path_);
        }
        carry_over(old);
        remove_folder(old);
    }
    sync_folder(parent_);
}
