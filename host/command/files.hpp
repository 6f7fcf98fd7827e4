// Files: reading and writing them whole, free space, SHA-256.
#ifndef FILES_HPP
#define FILES_HPP

#include <cstdint>
#include <string>
#include <vector>

// Each of these throws End with status 1, the file's name and the cause where
// it cannot be done.

std::string read_file(const std::string& name);

// Written and on the disk when this returns; the file is new or replaced.
void write_file(const std::string& name, const std::string& text);
void append_file(const std::string& name, const std::string& text);

// A copy that is on the disk when this returns.
void copy_file(const std::string& from, const std::string& to);

// Has a file that another program wrote on the disk.
void sync_file(const std::string& name);

void make_folder(const std::string& name);

// Has the names in a folder on the disk.
void sync_folder(const std::string& name);

void rename_file(const std::string& from, const std::string& to);

// The names in a folder, in order, without "." and "..".
std::vector<std::string> names_in(const std::string& folder);

// The SHA-256 of a file, as 64 hexadecimal digits.
std::string hash_of_file(const std::string& name);

// These do not throw.

bool exists(const std::string& name);
std::uint64_t size_of(const std::string& name);  // 0 where there is no such file
void remove_file(const std::string& name);
void remove_folder(const std::string& name);  // with all that is in it

// Whether nearly no space is left where the folder is.
bool disk_is_full(const std::string& folder);

#endif
