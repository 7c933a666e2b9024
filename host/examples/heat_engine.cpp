// A heat engine's day in small: the morning's load, then corrections from two routes in the order of their arrival. The
// engine uses a volume only while the building is accepted, and sees every frame that was refused, with its number. In the
// evening a window planner asks which polygons share the ridge.
// Usage: heat_engine LOAD FAST SLOW; a line of FAST or SLOW is a time of arrival and a frame, or a remark after '#'.
#include "framecheck.hpp"

#include <algorithm>
#include <cstdio>
#include <fstream>
#include <sstream>

namespace {

struct Arrival {
    std::string time, frame;
    framecheck::Route route;
};

std::string read_file(const char *name) {
    std::ifstream in(name, std::ios::binary);
    if (!in) throw std::runtime_error(std::string("cannot read ") + name);
    std::ostringstream text;
    text << in.rdbuf();
    return text.str();
}

void read_arrivals(const char *name, framecheck::Route route, std::vector<Arrival> &all) {
    std::istringstream in(read_file(name));
    for (std::string line; std::getline(in, line);) {
        const auto space = line.find(' ');
        if (line.empty() || line[0] == '#' || space == std::string::npos) continue;
        all.push_back({line.substr(0, space), line.substr(space + 1), route});
    }
}

void print(const framecheck::Report &report) {
    if (report.accepted()) {
        std::printf("accepted, %.6f m3 (six-volume %lld)\n", report.cubic_metres(), static_cast<long long>(report.six_volume));
    } else {
        std::printf("volume not used, check %02X, a = %u, b = %u: %s\n", static_cast<unsigned>(report.check), report.a, report.b,
                    framecheck::sentence(report).c_str());
    }
}

void print(framecheck::Refusal refusal) {
    const auto why = framecheck::sentence(refusal);
    std::printf("refused %02X: %.*s\n", static_cast<unsigned>(refusal), static_cast<int>(why.size()), why.data());
}

void print(const Arrival &arrival, const framecheck::Correction &c) {
    std::printf("%s %s ", arrival.time.c_str(), arrival.route == framecheck::Route::fast ? "fast" : "slow");
    if (c.number) std::printf("no. %u ", *c.number);
    if (const auto *report = c.accepted()) {
        print(*report);
    } else if (const auto *no = c.refused()) {
        print(no->refusal);
    } else {
        std::printf("%s\n", c.waiting() != nullptr ? "waits for room" : "is no correction and was not passed");
    }
}

// The edge between two points, and what is across it from its first user.
void print_edge(const framecheck::Building &building, std::uint16_t a, std::uint16_t b) {
    std::printf("edge %u, %u: ", a, b);
    const auto reply = building.across(a, b);
    if (const auto *no = std::get_if<framecheck::Refused>(&reply)) return print(no->refusal);
    const auto &edge = std::get<framecheck::EdgeAnswer>(reply);
    std::printf("users %u", edge.users);
    const auto other = edge.across_from(edge.first.value_or(FRAMECHECK_NO_USER));
    if (other) std::printf("; across it from polygon %u is polygon %u", *edge.first, *other);
    std::printf("\n");
}

int day(const char *load, const char *fast, const char *slow) {
    framecheck::Building building(framecheck::Folding::when_full);
    const auto loaded = building.load(read_file(load));
    for (const auto &line : loaded.refused)
        std::printf("load, line %zu refused %02X\n", line.line + 1, static_cast<unsigned>(line.refusal));
    if (!loaded.held) {
        std::printf("no building is held\n");
        return 1;
    }
    std::printf("load: %zu points, %zu polygons: ", building.points(), building.polygons());
    print(*building.report());

    std::vector<Arrival> arrivals;
    read_arrivals(fast, framecheck::Route::fast, arrivals);
    read_arrivals(slow, framecheck::Route::slow, arrivals);
    std::stable_sort(arrivals.begin(), arrivals.end(), [](const Arrival &p, const Arrival &q) { return p.time < q.time; });
    for (const auto &arrival : arrivals) print(arrival, building.take(arrival.frame, arrival.route));

    std::printf("evening: ");
    print(*building.report());
    const auto answers = building.polygon_answers();
    for (std::size_t p = 0; p < answers.size(); p++)
        std::printf("polygon %zu: finding %02X, position %u, last touched by no. %u, part %lld\n", p,
                    static_cast<unsigned>(answers[p].finding), answers[p].position.index, answers[p].stamp,
                    static_cast<long long>(answers[p].part));
    print_edge(building, 8, 9); // the ridge of the house in data/
    std::printf("%zu of %zu frames refused\n", building.refused().size(), building.corrections().size());
    return 0;
}

} // namespace

int main(int argc, char **argv) {
    if (argc != 4) {
        std::fprintf(stderr, "usage: heat_engine LOAD FAST SLOW\n");
        return 2;
    }
    try {
        return day(argv[1], argv[2], argv[3]);
    } catch (const std::exception &e) {
        std::fprintf(stderr, "heat_engine: %s\n", e.what());
        return 2;
    }
}
