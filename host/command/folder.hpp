// The folder of the results, and beside it the one of the work in progress,
// FOLDER.work, which is the lock too.
#ifndef FOLDER_HPP
#define FOLDER_HPP

#include <string>
#include <vector>

class Folder {
  public:
    explicit Folder(const std::string& given);
    Folder(const Folder&) = delete;
    Folder& operator=(const Folder&) = delete;
    // Removes what is empty of the folders that were made here, and lets go of
    // the lock.
    ~Folder();

    // Makes FOLDER where it is not there, and FOLDER.work, and takes the lock;
    // throws End where any of it cannot be had. Nothing else is called before.
    void take();

    const std::string& given() const { return given_; }  // for messages
    std::string work_given() const { return given_ + ".work"; }
    std::string file(const std::string& name) const { return path_ + "/" + name; }
    std::string work(const std::string& name) const { return work_ + "/" + name; }

    bool empty() const;       // nothing is in FOLDER
    bool work_empty() const;  // nothing is in FOLDER.work

    // Throws End where one of the command's files in FOLDER is no file.
    void test_files() const;

    // Empties FOLDER.work of what the command keeps there.
    void clear_work();
    // Has FOLDER.work ready for the run, with what is kept of earlier runs.
    void open_work();

    // Renames FOLDER.work/result into the place of FOLDER. What FOLDER had that
    // is not the command's goes along.
    void place();

  private:
    void find();
    void make_parents(const std::string& parent);
    void lock();
    void test_access() const;
    void carry_over(const std::string& from);

    std::string given_;
    std::string path_;    // of FOLDER, from the root
    std::string parent_;  // of the folder that it is in
    std::string work_;
    std::vector<std::string> made_;  // folders, in the order in which they were made
    int lock_ = -1;
};

#endif
