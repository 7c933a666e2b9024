// libFuzzer: the bytes are the stream as they are.
#include "compare.hpp"

extern "C" int LLVMFuzzerTestOneInput(const std::uint8_t *data, std::size_t size) {
    fuzz::compare(data, size);
    return 0;
}
