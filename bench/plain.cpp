// The plain baseline: document 01, with the requests of document 02 that stand, as a good engineer would first write it in C++.
// Every report looks at the whole building again; nothing is kept from one report to the next but the tables, the stamps and
// the last correction number.
#include "baselines.h"

#include <algorithm>
#include <array>
#include <cstdlib>
#include <map>
#include <optional>
#include <set>
#include <string>
#include <string_view>
#include <utility>
#include <vector>

namespace {

constexpr std::size_t most_bytes = 65535, most_lines = 1024, room_a_line = 33;
constexpr std::size_t most_points = 512, most_polygons = 256, most_ring = 128, most_entries = 1024;
constexpr std::int64_t most_coordinate = 100000, most_tolerance = 1000;

struct Point {
    std::int64_t x, y, z;
};

Point operator-(Point p, Point q) { return {p.x - q.x, p.y - q.y, p.z - q.z}; }
bool operator==(Point p, Point q) { return p.x == q.x && p.y == q.y && p.z == q.z; }
std::int64_t dot(Point p, Point q) { return p.x * q.x + p.y * q.y + p.z * q.z; }
Point cross(Point p, Point q) { return {p.y * q.z - p.z * q.y, p.z * q.x - p.x * q.z, p.x * q.y - p.y * q.x}; }

using Ring = std::vector<std::uint16_t>;

struct Polygon {
    Ring ring;
    std::uint32_t stamp = 0;
};

// ---- frames -------------------------------------------------------------------------------------------------------

struct Frame {
    int kind;
    std::string_view fields; // the digits after the kind
};

bool is_digit(char c) { return (c >= '0' && c <= '9') || (c >= 'A' && c <= 'F'); }

std::uint32_t number(std::string_view digits) {
    std::uint32_t value = 0;
    for (char c : digits) value = value * 16 + static_cast<std::uint32_t>(c <= '9' ? c - '0' : c - 'A' + 10);
    return value;
}

std::int64_t coordinate(std::string_view digits) { return static_cast<std::int32_t>(number(digits)); }

Point place(std::string_view digits) {
    return {coordinate(digits.substr(0, 8)), coordinate(digits.substr(8, 8)), coordinate(digits.substr(16, 8))};
}

bool within(Point p) {
    return std::abs(p.x) <= most_coordinate && std::abs(p.y) <= most_coordinate && std::abs(p.z) <= most_coordinate;
}

// The frame of a line, or nothing where a character, the kind or the length is not in the frame table.
std::optional<Frame> decode(std::string_view line) {
    if (line.size() < 2 || !std::all_of(line.begin(), line.end(), is_digit)) return std::nullopt;
    const auto kind = number(line.substr(0, 2));
    const auto size = line.size();
    bool fits = false;
    switch (kind) {
    case 1: fits = size == 6; break;
    case 2: fits = size == 26; break;
    case 3: fits = (size - 2) % 4 == 0 && (size - 2) / 4 <= most_ring; break;
    case 4: fits = size == 2; break;
    case 5: fits = size == 38; break;
    case 6: fits = size == 14; break;
    case 7: fits = size == 6; break;
    case 12: fits = size == 10; break;
    default: break;
    }
    if (!fits) return std::nullopt;
    return Frame{static_cast<int>(kind), line.substr(2)};
}

std::string hex(std::uint64_t value, int digits) {
    std::string text(static_cast<std::size_t>(digits), '0');
    for (int i = digits - 1; i >= 0; i--, value >>= 4) text[static_cast<std::size_t>(i)] = "0123456789ABCDEF"[value & 15];
    return text;
}

// ---- one ring -----------------------------------------------------------------------------------------------------

struct Flat {
    std::int64_t u, v;
};

// The point in the plane left by dropping the axis where the normal is largest in size; ties: x, then y.
Flat flatten(Point p, Point normal) {
    const auto x = std::abs(normal.x), y = std::abs(normal.y), z = std::abs(normal.z);
    if (x >= y && x >= z) return {p.y, p.z};
    if (y >= z) return {p.x, p.z};
    return {p.x, p.y};
}

std::int64_t turn(Flat a, Flat b, Flat c) { return (b.u - a.u) * (c.v - a.v) - (b.v - a.v) * (c.u - a.u); }

// Whether x stands on the segment a b, given that the three are in line.
bool between(Flat a, Flat b, Flat x) {
    return std::min(a.u, b.u) <= x.u && x.u <= std::max(a.u, b.u) && std::min(a.v, b.v) <= x.v &&
           x.v <= std::max(a.v, b.v);
}

int sign(std::int64_t value) { return (value > 0) - (value < 0); }

// Whether the closed segments a b and c d share a point; either may be a single place.
bool meet(Flat a, Flat b, Flat c, Flat d) {
    const int abc = sign(turn(a, b, c)), abd = sign(turn(a, b, d)), cda = sign(turn(c, d, a)), cdb = sign(turn(c, d, b));
    if (abc * abd < 0 && cda * cdb < 0) return true;
    return (abc == 0 && between(a, b, c)) || (abd == 0 && between(a, b, d)) || (cda == 0 && between(c, d, a)) ||
           (cdb == 0 && between(c, d, b));
}

// Whether the neighbours a b and b c share more than b: both leave b in one direction.
bool fold_back(Flat a, Flat b, Flat c) {
    return turn(b, a, c) == 0 && (a.u - b.u) * (c.u - b.u) + (a.v - b.v) * (c.v - b.v) > 0;
}

// The least edge that has a forbidden meeting. What it meets comes after it, so that the first pair found tells it.
std::optional<std::size_t> first_meeting(const std::vector<Flat> &corner) {
    const std::size_t edges = corner.size() - 1;
    for (std::size_t i = 0; i < edges; i++) {
        for (std::size_t j = i + 1; j < edges; j++) {
            if (j == i + 1) {
                if (fold_back(corner[i], corner[j], corner[j + 1])) return i;
            } else if (i == 0 && j == edges - 1) {
                if (fold_back(corner[j], corner[0], corner[1])) return i;
            } else if (meet(corner[i], corner[i + 1], corner[j], corner[j + 1])) {
                return i;
            }
        }
    }
    return std::nullopt;
}

// Two machine words as one number, which ISO C++ has no name for. Squares here are below 2^126.
__extension__ typedef unsigned __int128 Wide;

Wide square(std::int64_t value) {
    const Wide size = static_cast<Wide>(std::abs(value));
    return size * size;
}

// Whether a point is further from the plane than the tolerance; `off` is N·(p - first). No root is taken and nothing is rounded.
bool is_uneven(std::int64_t off, Point normal, std::int64_t tolerance) {
    return square(off) > square(tolerance) * (square(normal.x) + square(normal.y) + square(normal.z));
}

std::int64_t determinant(const std::array<Point, 3> &row) { return dot(row[0], cross(row[1], row[2])); }

// ---- the building -------------------------------------------------------------------------------------------------

using Edge = std::pair<std::uint16_t, std::uint16_t>; // the smaller number, the larger

struct Uses {
    int times = 0, forward = 0;               // forward: from the smaller number to the larger
    std::array<std::size_t, 2> polygon{0, 0}; // the first two users
};

struct Verdict {
    int check = 0;
    std::size_t a = 0, b = 0;
};

struct Finding {
    int check = 0;
    std::size_t position = 0; // of 03 and 06 an entry, of 05 an edge, else 0
};

class Building {
  public:
    std::int64_t tolerance = 0;
    std::vector<Point> points;
    std::vector<Polygon> polygons;
    std::size_t entries = 0;

    Finding finding(const Ring &ring) const {
        if (ring.size() < 4) return {1, 0};
        if (ring.back() != ring.front()) return {2, 0};
        std::vector<bool> seen(points.size(), false);
        for (std::size_t i = 0; i + 1 < ring.size(); i++) {
            if (seen[ring[i]]) return {3, i};
            seen[ring[i]] = true;
        }
        const Point first = points[ring[0]];
        Point normal{0, 0, 0};
        for (std::size_t i = 0; i + 1 < ring.size(); i++) {
            const Point c = cross(points[ring[i]] - first, points[ring[i + 1]] - first);
            normal = {normal.x + c.x, normal.y + c.y, normal.z + c.z};
        }
        if (normal == Point{0, 0, 0}) return {4, 0};
        std::vector<Flat> corner;
        corner.reserve(ring.size());
        for (auto entry : ring) corner.push_back(flatten(points[entry], normal));
        if (const auto edge = first_meeting(corner)) return {5, *edge};
        for (std::size_t i = 0; i < ring.size(); i++)
            if (is_uneven(dot(normal, points[ring[i]] - first), normal, tolerance)) return {6, i};
        return {};
    }

    std::int64_t part(const Ring &ring) const {
        std::int64_t sum = 0;
        for (std::size_t i = 0; i + 1 < ring.size(); i++)
            sum += determinant({points[ring[0]], points[ring[i]], points[ring[i + 1]]});
        return sum;
    }

    std::string report() const {
        std::size_t faulty = 0;
        std::int64_t six_volume = 0;
        Verdict verdict;
        for (std::size_t p = 0; p < polygons.size(); p++) {
            const Finding found = finding(polygons[p].ring);
            if (found.check != 0 && faulty++ == 0) verdict = {found.check, p, found.position};
            six_volume += part(polygons[p].ring);
        }
        if (faulty == 0) verdict = shape();
        if (verdict.check == 0 && six_volume <= 0) verdict = {0x0D, 0, 0};
        return "00" + hex(static_cast<std::uint64_t>(verdict.check), 2) + hex(verdict.a, 4) + hex(verdict.b, 4) +
               hex(faulty, 4) + hex(static_cast<std::uint64_t>(six_volume), 16);
    }

    std::string question(const Polygon &polygon) const {
        const Finding found = finding(polygon.ring);
        return "00" + hex(static_cast<std::uint64_t>(found.check), 2) + hex(found.position, 4) + hex(polygon.stamp, 8) +
               hex(static_cast<std::uint64_t>(part(polygon.ring)), 16);
    }

    // Every step of every ring is looked at; polygons come in their order, so that the first two met are the lowest.
    std::string users(Edge edge) const {
        std::vector<std::size_t> met;
        for (std::size_t p = 0; p < polygons.size(); p++) {
            const Ring &ring = polygons[p].ring;
            for (std::size_t i = 0; i + 1 < ring.size(); i++)
                if (Edge(std::minmax(ring[i], ring[i + 1])) == edge) met.push_back(p);
        }
        const auto user = [&](std::size_t k) { return hex(k < met.size() ? met[k] : 0xFFFF, 4); };
        return "00" + hex(met.size(), 4) + user(0) + user(1);
    }

  private:
    // Checks 07 to 0C, tried where no polygon has a finding.
    Verdict shape() const {
        if (polygons.size() < 4) return {7, polygons.size(), 0};
        std::map<Edge, Uses> edges;
        for (std::size_t p = 0; p < polygons.size(); p++) {
            const Ring &ring = polygons[p].ring;
            for (std::size_t i = 0; i + 1 < ring.size(); i++) {
                Uses &uses = edges[std::minmax(ring[i], ring[i + 1])];
                if (uses.times < 2) uses.polygon[static_cast<std::size_t>(uses.times)] = p;
                uses.times++;
                uses.forward += ring[i] < ring[i + 1];
            }
        }
        for (const auto &[edge, uses] : edges)
            if (uses.times == 1) return {8, edge.first, edge.second};
        for (const auto &[edge, uses] : edges)
            if (uses.times > 2) return {9, edge.first, edge.second};
        for (const auto &[edge, uses] : edges)
            if (uses.forward != 1) return {0x0A, edge.first, edge.second};

        using Pair = std::array<std::size_t, 2>;
        std::vector<std::vector<std::size_t>> across(polygons.size());
        std::vector<std::vector<Pair>> links(points.size()); // by point, the polygons that its edges link
        for (const auto &[edge, uses] : edges) {
            across[uses.polygon[0]].push_back(uses.polygon[1]);
            across[uses.polygon[1]].push_back(uses.polygon[0]);
            links[edge.first].push_back(uses.polygon);
            links[edge.second].push_back(uses.polygon);
        }

        std::vector<bool> reached(polygons.size(), false);
        std::vector<std::size_t> todo{0};
        reached[0] = true;
        while (!todo.empty()) {
            const std::size_t p = todo.back();
            todo.pop_back();
            for (std::size_t q : across[p]) {
                if (!reached[q]) {
                    reached[q] = true;
                    todo.push_back(q);
                }
            }
        }
        for (std::size_t p = 0; p < polygons.size(); p++)
            if (!reached[p]) return {0x0B, p, 0};

        for (std::size_t point = 0; point < points.size(); point++)
            if (!all_linked(links[point])) return {0x0C, point, 0};
        return {};
    }

    // Whether the pairs hang together: from the first, what is linked grows until nothing is added.
    static bool all_linked(const std::vector<std::array<std::size_t, 2>> &pairs) {
        if (pairs.empty()) return true;
        std::set<std::size_t> linked{pairs[0][0]};
        bool grown = true;
        while (grown) {
            grown = false;
            for (const auto &[p, q] : pairs) {
                if (linked.count(p) != linked.count(q)) {
                    linked.insert(p);
                    linked.insert(q);
                    grown = true;
                }
            }
        }
        for (const auto &pair : pairs)
            if (linked.count(pair[0]) == 0) return false;
        return true;
    }
};

// ---- the service --------------------------------------------------------------------------------------------------

class Service {
  public:
    std::string step(std::string_view line) {
        const auto frame = decode(line);
        if (!frame) return "01";
        if (frame->kind >= 2 && frame->kind <= 4 && state != State::loading) return "02";
        if (frame->kind >= 5 && state != State::held) return "02";
        switch (frame->kind) {
        case 1: return begin(frame->fields);
        case 2: return point(frame->fields);
        case 3: return polygon(frame->fields);
        case 4: return end();
        case 5: return move(frame->fields);
        case 6: return turn_over(frame->fields);
        case 7: return question(frame->fields);
        default: return across(frame->fields);
        }
    }

  private:
    enum class State { nothing, loading, held };
    State state = State::nothing;
    Building building;
    std::uint32_t last = 0;

    std::string begin(std::string_view fields) {
        if (number(fields) > most_tolerance) return "03";
        building = Building{};
        building.tolerance = number(fields);
        state = State::loading;
        return "00";
    }

    // Whether the place is that of a point other than the one numbered `self`.
    bool taken(Point where, std::size_t self) const {
        for (std::size_t i = 0; i < building.points.size(); i++)
            if (i != self && building.points[i] == where) return true;
        return false;
    }

    std::string point(std::string_view fields) {
        const Point where = place(fields);
        if (!within(where)) return "03";
        if (building.points.size() == most_points) return "04";
        if (taken(where, building.points.size())) return "06";
        building.points.push_back(where);
        return "00";
    }

    std::string polygon(std::string_view fields) {
        Ring ring;
        for (std::size_t i = 0; i < fields.size(); i += 4)
            ring.push_back(static_cast<std::uint16_t>(number(fields.substr(i, 4))));
        for (auto entry : ring)
            if (entry >= building.points.size()) return "05";
        if (building.polygons.size() == most_polygons || building.entries + ring.size() > most_entries) return "04";
        building.entries += ring.size();
        building.polygons.push_back({ring, 0});
        return "00";
    }

    std::string end() {
        state = State::held;
        last = 0;
        return building.report();
    }

    std::string move(std::string_view fields) {
        const auto n = number(fields.substr(0, 8));
        const auto which = number(fields.substr(8, 4));
        const Point where = place(fields.substr(12));
        if (n <= last) return "07";
        if (which >= building.points.size()) return "05";
        if (!within(where)) return "03";
        if (taken(where, which)) return "06";
        building.points[which] = where;
        for (auto &polygon : building.polygons)
            if (std::find(polygon.ring.begin(), polygon.ring.end(), which) != polygon.ring.end()) polygon.stamp = n;
        last = n;
        return building.report();
    }

    std::string turn_over(std::string_view fields) {
        const auto n = number(fields.substr(0, 8));
        const auto which = number(fields.substr(8, 4));
        if (n <= last) return "07";
        if (which >= building.polygons.size()) return "05";
        auto &polygon = building.polygons[which];
        std::reverse(polygon.ring.begin(), polygon.ring.end());
        polygon.stamp = n;
        last = n;
        return building.report();
    }

    std::string question(std::string_view fields) const {
        const auto which = number(fields);
        if (which >= building.polygons.size()) return "05";
        return building.question(building.polygons[which]);
    }

    std::string across(std::string_view fields) const {
        const auto a = number(fields.substr(0, 4)), b = number(fields.substr(4));
        if (std::max(a, b) >= building.points.size() || a == b) return "05";
        return building.users({static_cast<std::uint16_t>(std::min(a, b)), static_cast<std::uint16_t>(std::max(a, b))});
    }
};

std::vector<std::string_view> lines_of(std::string_view stream) {
    std::vector<std::string_view> lines;
    std::size_t start = 0;
    while (start < stream.size()) {
        const std::size_t end = std::min(stream.find('\n', start), stream.size());
        lines.push_back(stream.substr(start, end - start));
        start = end + 1;
    }
    return lines;
}

} // namespace

extern "C" std::int64_t framecheck_plain_answer(const std::uint8_t *stream, std::size_t stream_len, std::uint8_t *room,
                                                std::size_t room_len) {
    if (stream_len > most_bytes) return -1;
    const auto lines = lines_of({reinterpret_cast<const char *>(stream), stream_len});
    if (lines.size() > most_lines) return -2;
    if (room_len < room_a_line * lines.size()) return -3;
    Service service;
    std::size_t written = 0;
    for (auto line : lines) {
        const std::string answer = service.step(line) + "\n";
        std::copy(answer.begin(), answer.end(), room + written);
        written += answer.size();
    }
    return static_cast<std::int64_t>(written);
}
