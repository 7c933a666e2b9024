// One stream to the checker, the independent program of tests/ and the two baselines: result and every byte of the room must be
// the same. Stream and room end at pages that may not be touched, since the archive itself carries no sanitizer.
#ifndef FRAMECHECK_COMPARE_HPP
#define FRAMECHECK_COMPARE_HPP

#include "../tests/check.hpp"
#include "baselines.h"
#include "framecheck.h"

#include <vector>

// The independent program (tests/oracle), through tests/oracle_c.
extern "C" std::int64_t framecheck_oracle_answer(const std::uint8_t *stream, std::size_t stream_len, std::uint8_t *room,
                                                 std::size_t room_len);

namespace fuzz {

using Entry = std::int64_t (*)(const std::uint8_t *, std::size_t, std::uint8_t *, std::size_t);

constexpr std::size_t most_stream = 70000, most_room = 33 * 1024 + 64;

struct Outcome {
    std::int64_t result;
    std::vector<std::uint8_t> room;
};

struct Other {
    Entry entry;
    const char *name;
};

constexpr Other others[] = {
    {framecheck_oracle_answer, "independent program"}, {framecheck_plain_answer, "plain"}, {framecheck_tuned_answer, "tuned"}};

inline Outcome ask(Entry entry, const std::uint8_t *data, std::size_t size, std::size_t room) {
    static test::Fenced in(most_stream), out(most_room);
    std::uint8_t *stream = in.data() + most_stream - size, *answers = out.data() + most_room - room;
    if (size > 0) std::memcpy(stream, data, size);
    std::memset(answers, 0xA5, room);
    const std::int64_t result = entry(stream, size, answers, room);
    if (size > 0 && std::memcmp(stream, data, size) != 0) std::fprintf(stderr, "the stream was written to\n"), std::abort();
    return {result, std::vector<std::uint8_t>(answers, answers + room)};
}

inline void compare(const std::uint8_t *data, std::size_t size) {
    if (size > most_stream) return;
    const std::size_t enough = 33 * framecheck_lines(data, size);
    const std::size_t slack = size % 3 * 16, room = enough + slack > most_room ? most_room : enough + slack;
    const std::size_t rooms[] = {room, enough > 0 && enough <= most_room ? enough - 1 : 0};
    for (std::size_t r : rooms) {
        const Outcome checker = ask(checker_answer, data, size, r);
        for (const Other &other : others) {
            const Outcome o = ask(other.entry, data, size, r);
            if (o.result == checker.result && o.room == checker.room) continue;
            std::fprintf(stderr, "answers differ: checker %lld, %s %lld\n", static_cast<long long>(checker.result), other.name,
                         static_cast<long long>(o.result));
            std::abort();
        }
    }
}

} // namespace fuzz

#endif
