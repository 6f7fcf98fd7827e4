// The library's entries, called with a request of the second implementation.
#pragma once

#include <cstdint>

#include "../second/clauses.hpp"
#include "nordkelch.h"

// An entry with the numbers of a request before its other arguments.
template <typename Entry, typename... Others>
std::uint32_t ask(Entry entry, const second::Request& q, Others... others) {
    return entry(std::uint8_t(q.n), std::uint16_t(q.table), std::uint16_t(q.free),
                 std::uint8_t(q.r), std::uint8_t(q.m), others...);
}
