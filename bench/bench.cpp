// Times the checker beside the baselines on ten buildings, on rings that fail, on loads numbered at random and on edge questions, in one
// run, whole and by stages, and measures the stack. No time is printed unless all agree on every answer byte of every stream that is timed. Usage:
// bench NAME [samples], NAME of what is linked.
// The AVX-512 baseline takes part where it is built in (WITH_AVX512): it is timed on loads alone, since it keeps nothing.
#include "baselines.h"
#include "framecheck.h"
#include "streams.hpp"

#include <cstdlib>
#include <cstring>
#include <ctime>
#include <fstream>
#include <ucontext.h>
#include <vector>

// MARCH is the word that bench/run gives to -march.
#define TEXT(word) #word
#define TEXT_OF(word) TEXT(word)

namespace {

using Entry = std::int64_t (*)(const std::uint8_t *, std::size_t, std::uint8_t *, std::size_t);

// The floor: the same bytes through a table, digits packed two a byte, line feeds passed over, other characters noticed.
std::int64_t decode_floor(const std::uint8_t *stream, std::size_t stream_len, std::uint8_t *room, std::size_t) {
    static const struct Table {
        std::uint8_t value[256];
        Table() {
            std::memset(value, 0x80, sizeof value);
            for (int d = 0; d < 16; d++) value[static_cast<int>("0123456789ABCDEF"[d])] = static_cast<std::uint8_t>(d);
        }
    } table;
    std::uint8_t *out = room;
    std::uint32_t bad = 0;
    for (std::size_t at = 0; at < stream_len;) {
        const auto *found = static_cast<const std::uint8_t *>(std::memchr(stream + at, '\n', stream_len - at));
        const std::size_t end = found != nullptr ? static_cast<std::size_t>(found - stream) : stream_len;
        for (; at + 1 < end; at += 2) {
            const std::uint32_t high = table.value[stream[at]], low = table.value[stream[at + 1]];
            bad |= high | low;
            *out++ = static_cast<std::uint8_t>(high << 4 | low);
        }
        at = end + 1;
    }
    return bad < 0x80 ? out - room : -1;
}

struct Case {
    std::string name, stream;
    std::size_t points, polygons, entries;
};

Case make_case(const streams::Model &m, const std::string &stream) {
    std::size_t entries = 0;
    for (const auto &ring : m.rings) entries += ring.size();
    return {m.name, stream, m.points.size(), m.rings.size(), entries};
}

Case make_load(const streams::Model &m) { return make_case(m, streams::load(m)); }

std::vector<Case> make_loads(const std::vector<streams::Model> &models) {
    std::vector<Case> cases;
    for (const auto &m : models) cases.push_back(make_load(m));
    return cases;
}

// A building's stream as it grows: begin and points, the polygons too, the end of load too, and 300 frames more.
struct Stages {
    std::string name;
    std::vector<std::string> streams;
};

Stages make_stages(const streams::Model &m) {
    std::string points = streams::begin(m.tolerance), polygons;
    for (const auto &p : m.points) points += streams::point(p);
    for (const auto &ring : m.rings) polygons += streams::polygon(ring);
    return {m.name, {points, points + polygons, streams::load(m), streams::with_corrections(m)}};
}

std::size_t lines_of(const std::string &s) { return framecheck_lines(reinterpret_cast<const std::uint8_t *>(s.data()), s.size()); }

std::vector<std::uint8_t> answers(Entry entry, const std::string &stream) {
    std::vector<std::uint8_t> room(33 * lines_of(stream), 0xA5);
    const std::int64_t n = entry(reinterpret_cast<const std::uint8_t *>(stream.data()), stream.size(), room.data(), room.size());
    for (int i = 0; i < 8; i++) room.push_back(static_cast<std::uint8_t>(n >> 8 * i));
    return room;
}

const std::vector<Entry> all_three{checker_answer, framecheck_plain_answer, framecheck_tuned_answer};

#ifdef WITH_AVX512
const std::vector<Entry> loaders{checker_answer, framecheck_tuned_answer, framecheck_avx512_answer};
#else
const std::vector<Entry> loaders{checker_answer, framecheck_tuned_answer};
#endif

void must_agree(const Case &c) {
    std::vector<Entry> every = all_three;
    every.push_back(loaders.back());
    for (Entry entry : every) {
        if (answers(entry, c.stream) == answers(checker_answer, c.stream)) continue;
        std::printf("bench: the answers to '%s' differ; no time is printed\n", c.name.c_str());
        std::exit(1);
    }
}

// The thread's own processor time, so that other work on the machine is not counted.
double seconds() {
    timespec t{};
    clock_gettime(CLOCK_THREAD_CPUTIME_ID, &t);
    return static_cast<double>(t.tv_sec) + static_cast<double>(t.tv_nsec) * 1e-9;
}

volatile std::int64_t sink;

double once(Entry entry, const std::string &stream, std::vector<std::uint8_t> &room, int calls) {
    const auto *data = reinterpret_cast<const std::uint8_t *>(stream.data());
    const double start = seconds();
    for (int i = 0; i < calls; i++) sink = entry(data, stream.size(), room.data(), room.size());
    return (seconds() - start) / calls;
}

double median(std::vector<double> times) {
    const auto middle = times.begin() + static_cast<std::ptrdiff_t>(times.size() / 2);
    std::nth_element(times.begin(), middle, times.end());
    return *middle;
}

// Times in seconds of whole calls, one list for each entry and stream. They take turns, so that a machine whose pace changes slows
// all alike; a sample is 100 microseconds of calls or one call, and each gets two seconds at most.
struct Timed {
    Entry entry;
    std::string stream;
};

std::vector<std::vector<double>> samples_of(const std::vector<Timed> &timed, int samples) {
    std::size_t most = 0;
    for (const auto &t : timed) most = std::max({most, 33 * lines_of(t.stream), t.stream.size()});
    std::vector<std::uint8_t> room(most);
    std::vector<int> calls, wanted;
    for (const auto &t : timed) {
        const double first = std::max(1e-8, std::min(once(t.entry, t.stream, room, 1), once(t.entry, t.stream, room, 1)));
        calls.push_back(std::max(1, static_cast<int>(100e-6 / first)));
        wanted.push_back(std::max(5, std::min(samples, static_cast<int>(2.0 / (first * calls.back())))));
    }
    std::vector<std::vector<double>> times(timed.size());
    for (int s = 0; s < samples; s++)
        for (std::size_t e = 0; e < timed.size(); e++)
            if (s < wanted[e]) times[e].push_back(once(timed[e].entry, timed[e].stream, room, calls[e]));
    return times;
}

std::vector<double> medians(const std::vector<Entry> &entries, const std::string &stream, int samples) {
    std::vector<Timed> timed;
    for (Entry entry : entries) timed.push_back({entry, stream});
    std::vector<double> result;
    for (auto &times : samples_of(timed, samples)) result.push_back(median(std::move(times)));
    return result;
}

void table(const char *title, const char *linked, const std::vector<Case> &cases, int samples, bool loads) {
    std::printf("\n%s; microseconds a call\n", title);
    std::printf("%-20s %6s %5s %5s %5s | %9s %9s %9s %8s %8s | %7s %7s %8s %7s\n", "building", "bytes", "lines", "polyg", "entr", linked,
                "plain", "tuned", "avx512", "decode", "/plain", "/tuned", "/avx512", "/decode");
    for (const auto &c : cases) {
        std::vector<Entry> entries{checker_answer, framecheck_plain_answer, framecheck_tuned_answer, decode_floor};
        const bool third = loads && loaders.size() == 3;
        if (third) entries.push_back(loaders[2]);
        const auto t = medians(entries, c.stream, samples);
        std::printf("%-20s %6zu %5zu %5zu %5zu | %9.2f %9.2f %9.2f", c.name.c_str(), c.stream.size(), lines_of(c.stream), c.polygons,
                    c.entries, t[0] * 1e6, t[1] * 1e6, t[2] * 1e6);
        if (third) std::printf(" %8.2f", t[4] * 1e6);
        else std::printf(" %8s", "-");
        std::printf(" %8.2f | %7.3f %7.2f", t[3] * 1e6, t[0] / t[1], t[0] / t[2]);
        if (third) std::printf(" %8.2f", t[0] / t[4]);
        else std::printf(" %8s", "-");
        std::printf(" %7.2f\n", t[0] / t[3]);
    }
}

// What each stage of a stream adds to the call before it: the median of the differences within a round.
void stages(const char *linked, const std::vector<Stages> &buildings, int samples) {
    const std::vector<double> empty = medians(loaders, "", samples);
    std::printf("\nstages, nanoseconds that each adds: %s, tuned%s; an empty call %.0f, %.0f", linked,
                loaders.size() == 3 ? ", avx512 (loads alone)" : "", empty[0] * 1e9, empty[1] * 1e9);
    if (loaders.size() == 3) std::printf(", %.0f", empty[2] * 1e9);
    std::printf("\n%-20s | %-24s | %-24s | %-24s | %-16s\n", "building", "begin and points", "polygons", "checks", "300 frames more");
    for (const auto &b : buildings) {
        std::vector<Timed> timed;
        for (const auto &stream : b.streams)
            for (Entry entry : loaders) timed.push_back({entry, stream});
        timed.resize(timed.size() - (loaders.size() - 2)); // the last stage is for programs that keep values
        const auto times = samples_of(timed, samples);
        std::printf("%-20s", b.name.c_str());
        for (std::size_t i = 0; i < timed.size(); i++) {
            std::vector<double> added;
            for (std::size_t s = 0; s < times[i].size(); s++)
                added.push_back(times[i][s] - (i < loaders.size() || s >= times[i - loaders.size()].size() ? 0 : times[i - loaders.size()][s]));
            std::printf(i % loaders.size() == 0 ? " | %8.0f" : " %7.0f", median(added) * 1e9);
        }
        std::printf("\n");
    }
}

// What one edge question adds to a load: the median of the differences within a round, by the number of questions.
void edge_questions(const char *linked, const std::vector<streams::Model> &models, int samples) {
    std::printf("\n%d edge questions after a load; nanoseconds that each adds\n", streams::edge_questions);
    std::printf("%-20s %5s | %9s %9s %9s | %7s %7s\n", "building", "polyg", linked, "plain", "tuned", "/plain", "/tuned");
    for (const auto &m : models) {
        std::vector<Timed> timed;
        for (const auto &stream : {streams::load(m), streams::with_edge_questions(m)})
            for (Entry entry : all_three) timed.push_back({entry, stream});
        const auto times = samples_of(timed, samples);
        std::vector<double> each;
        for (std::size_t e = 0; e < all_three.size(); e++) {
            const auto &alone = times[e], &asked = times[e + all_three.size()];
            std::vector<double> added;
            for (std::size_t s = 0; s < std::min(alone.size(), asked.size()); s++) added.push_back(asked[s] - alone[s]);
            each.push_back(median(added) * 1e9 / streams::edge_questions);
        }
        std::printf("%-20s %5zu | %9.1f %9.1f %9.1f | %7.3f %7.2f\n", m.name.c_str(), m.rings.size(), each[0], each[1], each[2],
                    each[0] / each[1], each[0] / each[2]);
    }
}

void growth(const char *title, const char *linked, const std::vector<Case> &cases, int samples) {
    std::printf("\n%s; nanoseconds of a load by polygon, by byte\n", title);
    std::printf("%-20s %6s %5s %5s | %9s %7s | %9s %7s | %9s %7s\n", "building", "bytes", "polyg", "entr", linked, "", "plain", "",
                "tuned", "");
    for (const auto &c : cases) {
        const auto t = medians(all_three, c.stream, samples);
        std::printf("%-20s %6zu %5zu %5zu", c.name.c_str(), c.stream.size(), c.polygons, c.entries);
        for (double one : t)
            std::printf(" | %9.1f %7.2f", one * 1e9 / static_cast<double>(c.polygons), one * 1e9 / static_cast<double>(c.stream.size()));
        std::printf("\n");
    }
}

// ---- the stack ----------------------------------------------------------------------------------------------------

struct Call {
    Entry entry;
    const std::string *stream;
    std::vector<std::uint8_t> *room;
} call;

void run_call() {
    if (call.entry != nullptr)
        sink = call.entry(reinterpret_cast<const std::uint8_t *>(call.stream->data()), call.stream->size(), call.room->data(), call.room->size());
}

// Bytes of a painted stack that one call leaves changed.
std::size_t painted(Entry entry, const std::string &stream) {
    static ucontext_t here, there;
    std::vector<std::uint8_t> stack(1 << 20, 0xC5), room(33 * lines_of(stream));
    call = {entry, &stream, &room};
    getcontext(&there);
    there.uc_stack.ss_sp = stack.data();
    there.uc_stack.ss_size = stack.size();
    there.uc_link = &here;
    makecontext(&there, run_call, 0);
    swapcontext(&here, &there);
    std::size_t untouched = 0;
    while (untouched < stack.size() && stack[untouched] == 0xC5) untouched++;
    return stack.size() - untouched;
}

void stacks(const char *linked, const std::vector<Case> &cases) {
    std::size_t most[3] = {0, 0, 0};
    for (const auto &c : cases)
        for (std::size_t e = 0; e < 3; e++)
            most[e] = std::max(most[e], painted(all_three[e], c.stream) - painted(nullptr, c.stream));
    std::printf("\nstack of a call by painting, most over all streams above, bytes: %s %zu, plain %zu (and the heap), tuned %zu\n", linked,
                most[0], most[1], most[2]);
}

void machine() {
    std::string line, model = "unknown";
    std::ifstream cpu("/proc/cpuinfo");
    while (std::getline(cpu, line))
        if (line.rfind("model name", 0) == 0) {
            model = line.substr(line.find(':') + 2);
            break;
        }
    std::string load;
    std::getline(std::ifstream("/proc/loadavg") >> std::ws, load);
    std::printf("CPU %s; baselines by %s %s, -O3 -march=" TEXT_OF(MARCH) "; load average %s\n", model.c_str(),
#ifdef __clang__
                "clang",
#else
                "g++",
#endif
                __VERSION__, load.substr(0, load.find(' ')).c_str());
}

// ---- what is timed ------------------------------------------------------------------------------------------------

struct Buildings {
    std::vector<Case> loads = make_loads(streams::ten_buildings()), corrected, late, turned, asked;
    std::vector<Case> early = make_loads(streams::rings_that_fail_early()), numbered = make_loads(streams::numbered_at_random());
    std::vector<Case> balls, roofs, towers, thin;
    std::vector<Stages> by_stage;
    std::vector<streams::Model> of_edges{streams::ball("ball, 256 triangles", 8, 16), streams::tower("40-storey tower", 40),
                                         streams::prism("127-gon prism", streams::star(127, 50000, 50000), 9000, 44)};

    Buildings() {
        for (const auto &m : streams::ten_buildings()) {
            by_stage.push_back(make_stages(m));
            corrected.push_back(make_case(m, streams::with_corrections(m)));
        }
        for (int check : {3, 5, 6}) {
            const auto m = streams::late_rings("0" + std::to_string(check) + " found late", check);
            late.push_back(make_load(m));
            turned.push_back(make_case(m, streams::with_turns(m)));
        }
        for (const auto &m : of_edges) asked.push_back(make_case(m, streams::with_edge_questions(m)));
        for (const auto &m : streams::rings_that_fail_early()) asked.push_back(make_case(m, streams::with_edge_questions(m)));
        grow();
    }

    void grow() {
        for (const auto &[rings, around] : {std::pair{1, 8}, std::pair{2, 8}, std::pair{4, 8}, std::pair{4, 16}, std::pair{8, 16}})
            balls.push_back(make_load(streams::ball("ball", rings, around)));
        for (int n : {4, 8, 16, 32, 64, 127})
            roofs.push_back(make_load(streams::prism(std::to_string(n) + "-corner roof", streams::star(n, 30000, 50000), 9000)));
        for (int storeys : {12, 25, 50}) towers.push_back(make_load(streams::tower(std::to_string(storeys) + "-storey tower", storeys)));
        for (int n : {4, 5, 8, 40, 127}) thin.push_back(make_load(streams::thin_rings("rings of " + std::to_string(n), n)));
    }

    std::vector<Case> every() const {
        std::vector<Case> all;
        for (const auto *some : {&loads, &corrected, &late, &turned, &early, &asked, &numbered, &balls, &roofs, &towers, &thin})
            all.insert(all.end(), some->begin(), some->end());
        return all;
    }
};

} // namespace

int main(int argc, char **argv) {
    const char *linked = argc > 1 ? argv[1] : "checker";
    const int samples = argc > 2 ? std::max(3, std::atoi(argv[2])) : 301;
    const Buildings b;
    const std::vector<Case> every = b.every();
    for (const auto &c : every) must_agree(c);

    machine();
    std::printf("all agree on the %zu streams; medians of %d samples at most, whole calls, processor time\n", every.size(), samples);
    table("loads", linked, b.loads, samples, true);
    table("loads with 50 moves, 50 turns and 200 questions", linked, b.corrected, samples, false);
    table("loads of eight rings of 127 that fail at a late position", linked, b.late, samples, true);
    table("the same with 100 turns and 100 questions", linked, b.turned, samples, false);
    table("loads whose rings fail 01 to 03 early", linked, b.early, samples, false);
    table("loads numbered at random (two balls: report 0B)", linked, b.numbered, samples, true);
    edge_questions(linked, b.of_edges, samples);
    stages(linked, b.by_stage, samples);
    growth("growth with polygons (balls of triangles)", linked, b.balls, samples);
    growth("growth with the corners of one roof (prisms)", linked, b.roofs, samples);
    growth("growth with the storeys of a tower numbered from the top down", linked, b.towers, samples);
    growth("growth with the entries of rings on a line, which check 03 is asked of", linked, b.thin, samples);
    stacks(linked, every);
}
