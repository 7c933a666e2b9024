// The plain baseline behind the checker's own symbol, for building and trying the host before the proved archive is there.
// What is linked with it is NOT the proved checker.
#include "baselines.h"

#include "framecheck.h"

extern "C" std::int64_t checker_answer(const std::uint8_t *stream, std::size_t stream_len, std::uint8_t *room,
                                       std::size_t room_len) {
    return framecheck_plain_answer(stream, stream_len, room, room_len);
}
