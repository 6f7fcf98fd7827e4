// SHA-256 (FIPS 180-4), for the record's list of files.
#ifndef SHA256_HPP
#define SHA256_HPP

#include <array>
#include <cstddef>
#include <cstdint>
#include <string>

class Sha256 {
  public:
    void add(const char* bytes, std::size_t length);

    // The hash of all that was added, as 64 hexadecimal digits. Nothing is
    // added afterwards.
    std::string digits();

  private:
    void take_block();

    std::array<std::uint32_t, 8> state_ = {0x6a09e667, 0xbb67ae85, 0x3c6ef372, 0xa54ff53a,
                                           0x510e527f, 0x9b05688c, 0x1f83d9ab, 0x5be0cd19};
    std::array<unsigned char, 64> block_{};
    std::size_t filled_ = 0;  // bytes of the block
    std::uint64_t length_ = 0;
};

#endif
