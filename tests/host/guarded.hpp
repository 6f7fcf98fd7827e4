// Texts that are handed to the library at the end of the memory that may be
// read: a byte read past the end of one stops the program.
#pragma once

#include <sys/mman.h>

#include <algorithm>
#include <cstddef>
#include <cstdint>
#include <cstdlib>
#include <string>

// A place for one text at a time. It grows with the longest.
class Guarded {
  public:
    Guarded() = default;
    Guarded(const Guarded&) = delete;
    Guarded& operator=(const Guarded&) = delete;
    ~Guarded() { release(); }

    // The bytes of the text, until the next text is put here.
    const std::uint8_t* put(const std::string& text) {
        if (start_ == nullptr || text.size() > room_) reserve(text.size());
        std::uint8_t* const bytes = start_ + room_ - text.size();
        std::copy(text.begin(), text.end(), bytes);
        return bytes;
    }

  private:
    static constexpr std::size_t page = 4096;

    void release() {
        if (start_ != nullptr) munmap(start_, room_ + page);
    }

    void reserve(std::size_t size) {
        release();
        room_ = (size / page + 1) * page;
        void* const all = mmap(nullptr, room_ + page, PROT_READ | PROT_WRITE,
                               MAP_PRIVATE | MAP_ANONYMOUS, -1, 0);
        if (all == MAP_FAILED) std::abort();
        start_ = static_cast<std::uint8_t*>(all);
        if (mprotect(start_ + room_, page, PROT_NONE) != 0) std::abort();
    }

    std::uint8_t* start_ = nullptr;
    std::size_t room_ = 0;
};
