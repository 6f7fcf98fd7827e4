// What the benchmarks share: how long something takes.
#pragma once

#include <algorithm>
#include <chrono>
#include <cstddef>

// Milliseconds that the work takes.
template <typename Work>
double milliseconds(Work work) {
    const auto start = std::chrono::steady_clock::now();
    work();
    const std::chrono::duration<double, std::milli> taken = std::chrono::steady_clock::now() - start;
    return taken.count();
}

inline double nanoseconds_a_byte(double milliseconds, std::size_t bytes) {
    return bytes == 0 ? 0 : milliseconds * 1e6 / double(bytes);
}

// How often a text is timed: fewer times where it is long.
inline int turns_for(std::size_t bytes) { return bytes > 4000000 ? 4 : 7; }
