// Messages, and the two ways in which the command ends before its last step.
//
// Messages go to standard error and start with "nordkelch: ". A step that
// cannot go on throws End with the exit status and the message; an interrupt is
// thrown as Interrupted. Both are caught where the work so far is put away.
#ifndef SAY_HPP
#define SAY_HPP

#include <string>

// Exit statuses of the command; host/nordkelch has them for its user.
enum Status {
    settled = 0,
    failure = 1,
    wrong_words = 2,
    open_by_time = 3,
    more_than = 4,
    fewer_found = 5,
    open_by_length = 6,
};

struct End {
    int status;
    std::string message;
};

struct Interrupted {
    int signal;
};

void say(const std::string& message);

// Ends with status 1 and a message that has the cause of errno.
[[noreturn]] void end_by_errno(const std::string& what);

// "1 switch", "2 switches"
std::string switches(unsigned k);

#endif
