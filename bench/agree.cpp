// Compares the plain baseline, the tuned one and, where they are linked, the AVX-512 one and the checker on random and damaged streams; every byte
// of the room is compared, past the answer too. Usage: agree [count [first seed]]
#include "baselines.h"
#include "streams.hpp"

#include <cstdlib>
#include <cstring>
#include <vector>

#ifdef WITH_CHECKER
#include "framecheck.h"
#endif

namespace {

using Entry = std::int64_t (*)(const std::uint8_t *, std::size_t, std::uint8_t *, std::size_t);

struct Outcome {
    std::int64_t result;
    std::vector<std::uint8_t> room;
};

Outcome ask(Entry entry, const std::string &stream, std::size_t room) {
    Outcome o{0, std::vector<std::uint8_t>(room, 0xA5)};
    o.result = entry(reinterpret_cast<const std::uint8_t *>(stream.data()), stream.size(), o.room.data(), room);
    return o;
}

bool same(const Outcome &a, const Outcome &b) { return a.result == b.result && a.room == b.room; }

std::vector<std::string> lines_in(const std::string &text) {
    std::vector<std::string> lines;
    for (std::size_t at = 0; at < text.size();) {
        const std::size_t end = std::min(text.find('\n', at), text.size());
        lines.push_back(text.substr(at, end - at));
        at = end + 1;
    }
    return lines;
}

// What an answer says, in few words.
std::string kind_of(const std::string &frame, const std::string &answer) {
    if (answer == "00") return "plain";
    if (answer.size() == 2) return "refusal " + answer + (frame.substr(0, 2) == "0C" ? " of an edge question" : "");
    if (frame[1] == '7') return "question, finding " + answer.substr(2, 2);
    if (frame[1] != 'C') return "report " + answer.substr(2, 2);
    const std::string users = answer.substr(2, 4), first = answer.substr(6, 4), second = answer.substr(10);
    return "edge question, users " + (users <= "0003" ? users.substr(3) : "more") + (first == second && first != "FFFF" ? ", one twice" : "");
}

} // namespace

int main(int argc, char **argv) {
    const std::uint64_t count = argc > 1 ? std::strtoull(argv[1], nullptr, 10) : 20000;
    const std::uint64_t first = argc > 2 ? std::strtoull(argv[2], nullptr, 10) : 1;
    std::map<std::string, std::uint64_t> seen; // kinds of answers met, so that the reader sees what was covered
    std::uint64_t failed = 0;
    for (std::uint64_t seed = first; seed < first + count; seed++) {
        const std::string stream = streams::any_stream(seed);
        streams::Random r(~seed);
        const std::size_t enough = 33 * lines_in(stream).size();
        const std::size_t room = r.one_in(50) ? enough - std::min<std::size_t>(enough, 1) : enough + static_cast<std::size_t>(r.below(40));
        const Outcome plain = ask(framecheck_plain_answer, stream, room);
        bool agree = same(plain, ask(framecheck_tuned_answer, stream, room));
#ifdef WITH_AVX512
        agree = agree && same(plain, ask(framecheck_avx512_answer, stream, room));
#endif
#ifdef WITH_CHECKER
        agree = agree && same(plain, ask(checker_answer, stream, room));
#endif
        if (!agree) {
            failed++;
            std::fprintf(stderr, "seed %llu: answers differ\n", static_cast<unsigned long long>(seed));
        }
        if (plain.result < 0) {
            seen["whole-stream refusal " + std::to_string(plain.result)]++;
            continue;
        }
        const auto frames = lines_in(stream), answers = lines_in({plain.room.begin(), plain.room.begin() + plain.result});
        for (std::size_t i = 0; i < answers.size(); i++) seen[kind_of(frames[i], answers[i])]++;
    }
    for (const auto &[what, times] : seen) std::printf("%-36s %llu\n", what.c_str(), static_cast<unsigned long long>(times));
    std::printf("%llu passed, %llu failed\n", static_cast<unsigned long long>(count - failed), static_cast<unsigned long long>(failed));
    return failed == 0 ? 0 : 1;
}
