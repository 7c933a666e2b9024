// Check 06 of the tuned and the AVX-512 baseline: how far a ring's points are off its plane, in two machine words where one does not
// settle it.
#ifndef FRAMECHECK_DISTANCE_HPP
#define FRAMECHECK_DISTANCE_HPP

#include <algorithm>
#include <cstdint>

namespace distance {

// Two machine words as one number, which ISO C++ has no name for. Squares here are below 2^126.
__extension__ typedef unsigned __int128 u128;

inline u128 square(std::int64_t size) { return static_cast<u128>(size) * static_cast<u128>(size); }

// Given the largest size of N·(p - first) and the sizes of N's components. The true distance is at most the one along the axis where
// N is largest, so that what is within the tolerance there needs no square.
inline bool is_uneven(std::int64_t off, std::int64_t ax, std::int64_t ay, std::int64_t az, std::int64_t tolerance) {
    if (off <= tolerance * std::max(ax, std::max(ay, az))) return false;
    return square(off) > square(tolerance) * (square(ax) + square(ay) + square(az));
}

} // namespace distance

#endif
