// The C++ baselines behind the checker's own C interface: same arguments, same answer bytes.
#ifndef FRAMECHECK_BASELINES_H
#define FRAMECHECK_BASELINES_H

#include <cstddef>
#include <cstdint>

extern "C" {

// Recomputes everything at each report; containers of the standard library, the rules as document 01 states them.
std::int64_t framecheck_plain_answer(const std::uint8_t *stream, std::size_t stream_len, std::uint8_t *room,
                                     std::size_t room_len);

// Keeps findings, parts, the list of edges and the shape between reports; no heap, boxes before exact tests, table-driven decoding.
std::int64_t framecheck_tuned_answer(const std::uint8_t *stream, std::size_t stream_len, std::uint8_t *room,
                                     std::size_t room_len);

// Loads by hand-written AVX-512, all else by the plain one; only on a processor that has it, one call at a time.
std::int64_t framecheck_avx512_answer(const std::uint8_t *stream, std::size_t stream_len, std::uint8_t *room,
                                      std::size_t room_len);
}

#endif
