// The result of a run: the verdict that the bounds give, its files, and the
// check of a result that was left before.
#ifndef RESULT_HPP
#define RESULT_HPP

#include <string>

#include "folder.hpp"
#include "journal.hpp"
#include "record.hpp"
#include "search.hpp"
#include "steps.hpp"
#include "words.hpp"

// The number of switches that the verdict "more" is more than.
unsigned most_switches(const Question& question);

// Why r switches are neither refuted nor enough.
std::string reason_for(unsigned r, const Words& words, const Journal& journal);

// The verdict, the network that is kept, and the reason where it is open.
Record conclusion(const Words& words, const Bounds& bounds, const Journal& journal);

// Makes the files in FOLDER.work/result, from what is kept.
void make_result(Record& record, const Words& words, const Folder& folder, const Journal& journal,
                 const Steps& steps);

// What is wrong with the files of a result in FOLDER; empty where they are
// those of the record and, for a settled one, the proved code says its verdict
// of them again.
std::string fault_of(const Record& record, const Question& question, const Folder& folder);

#endif
