// Messages, and ends with a cause; say.hpp has what they are for.
#include "say.hpp"

#include <cerrno>
#include <cstdio>
#include <cstring>

void say(const std::string& message) { std::fprintf(stderr, "nordkelch: %s\n", message.c_str()); }

void end_by_errno(const std::string& what) {
    throw End{failure, what + ": " + std::strerror(errno)};
}

std::string switches(unsigned k) { return std::to_string(k) + (k == 1 ? " switch" : " switches"); }
