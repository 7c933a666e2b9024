// Buildings and streams for the benchmark, the tests and the fuzz seeds: the ten buildings that are timed, some that are numbered at
// random, some with rings that fail, and a generator of random and damaged streams from a number.
#ifndef FRAMECHECK_STREAMS_HPP
#define FRAMECHECK_STREAMS_HPP

#include <algorithm>
#include <array>
#include <cmath>
#include <cstdint>
#include <cstdio>
#include <cstdlib>
#include <map>
#include <string>
#include <utility>
#include <vector>

namespace streams {

using Place = std::array<int, 3>;
using Ring = std::vector<int>;

struct Model {
    std::string name;
    int tolerance = 0;
    std::vector<Place> points;
    std::vector<Ring> rings; // closed, as sent
};

// ---- frames -------------------------------------------------------------------------------------------------------

inline std::string hex(std::uint64_t value, int digits) {
    char text[17];
    std::snprintf(text, sizeof text, "%0*llX", digits, static_cast<unsigned long long>(value));
    const std::string all(text);
    return all.substr(all.size() - static_cast<std::size_t>(digits));
}

inline std::string coordinates(Place p) {
    std::string text;
    for (int c : p) text += hex(static_cast<std::uint32_t>(c), 8);
    return text;
}

inline std::string begin(int tolerance) { return "01" + hex(static_cast<std::uint64_t>(tolerance), 4) + "\n"; }
inline std::string point(Place p) { return "02" + coordinates(p) + "\n"; }

inline std::string polygon(const Ring &ring) {
    std::string text = "03";
    for (int entry : ring) text += hex(static_cast<std::uint64_t>(entry), 4);
    return text + "\n";
}

inline std::string end_of_load() { return "04\n"; }

inline std::string move(std::uint32_t number, int which, Place p) {
    return "05" + hex(number, 8) + hex(static_cast<std::uint64_t>(which), 4) + coordinates(p) + "\n";
}

inline std::string turn(std::uint32_t number, int which) {
    return "06" + hex(number, 8) + hex(static_cast<std::uint64_t>(which), 4) + "\n";
}

inline std::string question(int which) { return "07" + hex(static_cast<std::uint64_t>(which), 4) + "\n"; }

inline std::string across(int a, int b) {
    return "0C" + hex(static_cast<std::uint64_t>(a), 4) + hex(static_cast<std::uint64_t>(b), 4) + "\n";
}

inline std::string load(const Model &m) {
    std::string text = begin(m.tolerance);
    for (const auto &p : m.points) text += point(p);
    for (const auto &r : m.rings) text += polygon(r);
    return text + end_of_load();
}

// ---- buildings ----------------------------------------------------------------------------------------------------

inline std::int64_t six_volume(const Model &m) {
    std::int64_t sum = 0;
    for (const auto &ring : m.rings) {
        for (std::size_t i = 0; i + 1 < ring.size(); i++) {
            const auto &f = m.points[static_cast<std::size_t>(ring[0])];
            const auto &p = m.points[static_cast<std::size_t>(ring[i])];
            const auto &q = m.points[static_cast<std::size_t>(ring[i + 1])];
            const std::int64_t px = p[0], py = p[1], pz = p[2], qx = q[0], qy = q[1], qz = q[2];
            sum += f[0] * (py * qz - pz * qy) + f[1] * (pz * qx - px * qz) + f[2] * (px * qy - py * qx);
        }
    }
    return sum;
}

inline Model face_out(Model m) {
    if (six_volume(m) < 0)
        for (auto &ring : m.rings) std::reverse(ring.begin(), ring.end());
    return m;
}

inline Model tetrahedron() {
    return {"tetrahedron", 10, {{0, 0, 0}, {1000, 0, 0}, {0, 1000, 0}, {0, 0, 1000}},
            {{0, 2, 1, 0}, {0, 1, 3, 0}, {0, 3, 2, 0}, {1, 2, 3, 1}}};
}

// A prism over a flat outline: floor, roof and one wall an edge. `split` walls are sent as two triangles each.
inline Model prism(std::string name, const std::vector<std::pair<int, int>> &outline, int height, int split = 0) {
    Model m{std::move(name), 10, {}, {}};
    const int n = static_cast<int>(outline.size());
    for (int level : {0, height})
        for (const auto &[x, y] : outline) m.points.push_back({x, y, level});
    Ring floor, roof;
    for (int i = 0; i < n; i++) {
        floor.push_back((n - i) % n);
        roof.push_back(n + i);
    }
    floor.push_back(0);
    roof.push_back(n);
    m.rings = {floor, roof};
    for (int i = 0; i < n; i++) {
        const int j = (i + 1) % n;
        if (i < split) {
            m.rings.push_back({i, j, n + j, i});
            m.rings.push_back({i, n + j, n + i, i});
        } else {
            m.rings.push_back({i, j, n + j, n + i, i});
        }
    }
    return face_out(m);
}

// An outline of n corners round the origin whose radius goes in and out, so that it is not convex where `in` < `out`.
inline std::vector<std::pair<int, int>> star(int n, int in, int out) {
    std::vector<std::pair<int, int>> outline;
    for (int i = 0; i < n; i++) {
        const double angle = 2.0 * 3.14159265358979323846 * i / n;
        const int radius = i % 2 == 0 ? out : in;
        outline.emplace_back(static_cast<int>(std::lround(radius * std::cos(angle))),
                             static_cast<int>(std::lround(radius * std::sin(angle))));
    }
    return outline;
}

inline Model box() { return prism("box", {{0, 0}, {8000, 0}, {8000, 6000}, {0, 6000}}, 5000); }

// Eaves at 5 m, a ridge along y at 8 m.
inline Model gabled_house() {
    return face_out({"gabled house", 10,
                     {{0, 0, 0}, {8000, 0, 0}, {8000, 10000, 0}, {0, 10000, 0}, {0, 0, 5000}, {8000, 0, 5000},
                      {8000, 10000, 5000}, {0, 10000, 5000}, {4000, 0, 8000}, {4000, 10000, 8000}},
                     {{0, 3, 2, 1, 0}, {0, 1, 5, 8, 4, 0}, {2, 3, 7, 9, 6, 2}, {1, 2, 6, 5, 1}, {3, 0, 4, 7, 3},
                      {5, 6, 9, 8, 5}, {7, 4, 8, 9, 7}}});
}

inline Model l_shape() {
    return prism("L-shaped prism", {{0, 0}, {12000, 0}, {12000, 5000}, {5000, 5000}, {5000, 9000}, {0, 9000}}, 6000);
}

// A ball of `rings` circles of `around` points and two poles.
inline Model ball(std::string name, int rings, int around) {
    Model m{std::move(name), 10, {}, {}};
    const double pi = 3.14159265358979323846, radius = 20000;
    m.points.push_back({0, 0, static_cast<int>(radius)});
    for (int r = 1; r <= rings; r++) {
        const double down = pi * r / (rings + 1);
        for (int i = 0; i < around; i++) {
            const double angle = 2 * pi * i / around;
            m.points.push_back({static_cast<int>(std::lround(radius * std::sin(down) * std::cos(angle))),
                                static_cast<int>(std::lround(radius * std::sin(down) * std::sin(angle))),
                                static_cast<int>(std::lround(radius * std::cos(down)))});
        }
    }
    m.points.push_back({0, 0, -static_cast<int>(radius)});
    const int south = static_cast<int>(m.points.size()) - 1;
    const auto at = [&](int r, int i) { return 1 + r * around + i % around; };
    for (int i = 0; i < around; i++) {
        m.rings.push_back({0, at(0, i), at(0, i + 1), 0});
        m.rings.push_back({south, at(rings - 1, i + 1), at(rings - 1, i), south});
    }
    for (int r = 0; r + 1 < rings; r++) {
        for (int i = 0; i < around; i++) {
            m.rings.push_back({at(r, i), at(r + 1, i), at(r + 1, i + 1), at(r, i)});
            m.rings.push_back({at(r, i), at(r + 1, i + 1), at(r, i + 1), at(r, i)});
        }
    }
    return face_out(m);
}

// Four flat stars of 126 corners, each listed from both sides: no solid, but the most work that check 05 can ask for.
inline Model eight_rings() {
    Model m{"eight rings of 127", 10, {}, {}};
    const auto outline = star(126, 60000, 90000);
    for (int level = 0; level < 4; level++) {
        Ring ring;
        for (const auto &[x, y] : outline) {
            ring.push_back(static_cast<int>(m.points.size()));
            m.points.push_back({x, y, 3000 * level});
        }
        ring.push_back(ring[0]);
        m.rings.push_back(ring);
        std::reverse(ring.begin(), ring.end());
        m.rings.push_back(ring);
    }
    return m;
}

// Eight flat stars of 126 corners that fail a check where it is found last: 03 at the entry before the closing one, 05 at the last edge
// but two, 06 at the last corner.
inline Model late_rings(std::string name, int check) {
    Model m{std::move(name), 10, {}, {}};
    const double step = 2.0 * 3.14159265358979323846 / 126;
    for (int k = 0; k < 8; k++) {
        auto outline = star(126, 60000, 90000);
        // In from the last corner but one, to the side from which its edge came: the last edge crosses that one.
        const double u = 75000 * std::cos(123.3 * step), v = 75000 * std::sin(123.3 * step);
        if (check == 5) outline.back() = {static_cast<int>(std::lround(u)), static_cast<int>(std::lround(v))};
        Ring ring;
        for (const auto &[x, y] : outline) {
            ring.push_back(k % 4 * 126 + static_cast<int>(ring.size()));
            if (k < 4) m.points.push_back({x, y, 3000 * k});
        }
        if (check == 6 && k < 4) m.points.back()[2] += 100;
        if (check == 3) ring.back() = ring[ring.size() - 2];
        ring.push_back(ring[0]);
        m.rings.push_back(ring);
    }
    return m;
}

// Loads whose rings fail 01 to 03 early, so that little is left to do for them but the list of edges: a ball with one ring short or
// open, or all open; the eight stars left open, or with a number that comes again two entries later, so that a ring uses an edge twice.
inline std::vector<Model> rings_that_fail_early() {
    Model one_short = ball("ball, one ring short", 8, 16), one_open = ball("ball, one ring open", 8, 16);
    one_short.rings[0].pop_back();
    one_open.rings[0].back() = one_open.rings[0][1];
    Model all_open = ball("ball, rings open", 8, 16), open = eight_rings(), again = eight_rings();
    for (auto &ring : all_open.rings) ring.back() = ring[1];
    for (auto &ring : open.rings) ring.back() = ring[1];
    for (auto &ring : again.rings) ring[2] = ring[0];
    open.name = "eight rings open";
    again.name = "eight rings, 03";
    return {one_short, one_open, all_open, open, again};
}

// As many rings of n entries as fit, over points on one line, each from another point on: they pass 01 to 03 and fail 04, where a sound
// ring that is convex would never come to 03.
inline Model thin_rings(std::string name, int n) {
    Model m{std::move(name), 10, {}, {}};
    const int points = 127;
    for (int i = 0; i < points; i++) m.points.push_back({300 * i, 200 * i, 100 * i});
    for (int k = 0; k < std::min(256, 1024 / n); k++) {
        Ring ring;
        for (int i = 0; i < n - 1; i++) ring.push_back((7 * k + i) % points);
        ring.push_back(ring[0]);
        m.rings.push_back(ring);
    }
    return m;
}

// A square tower whose points are numbered from the top down and whose floor is polygon 0: a sweep over its edges in their order goes
// one storey further, so that 0B has to go another way.
inline Model tower(std::string name, int storeys) {
    Model m;
    m.name = std::move(name);
    const int top = 4 * storeys + 3;
    for (int z = storeys; z >= 0; z--)
        for (const auto &[x, y] : {std::pair{0, 1}, std::pair{1, 1}, std::pair{1, 0}, std::pair{0, 0}})
            m.points.push_back({x * 4000, y * 4000, z * 1500});
    const auto number = [&](int storey, int side) { return top - 4 * storey - side % 4; };
    const auto closed = [](int a, int b, int c, int d) { return Ring{a, b, c, d, a}; };
    m.rings.push_back(closed(number(0, 3), number(0, 2), number(0, 1), number(0, 0)));
    for (int k = 0; k < storeys; k++)
        for (int side = 0; side < 4; side++)
            m.rings.push_back(closed(number(k, side), number(k, side + 1), number(k + 1, side + 1), number(k + 1, side)));
    m.rings.push_back(closed(number(storeys, 0), number(storeys, 1), number(storeys, 2), number(storeys, 3)));
    return m;
}

// A round house of `corners` corners under two steep roofs, each over half of it, that meet in a falling ridge. They slope by 0.95
// along x and along y, and their corners off the ridge stand `off` above or below the plane in turn: along z, where N is largest, as
// much as that, by true distance about 0.6 of it. Walls stay flat, since corners leave their places along z only.
inline Model steep_roofs(std::string name, int corners, int radius, int off) {
    Model m = prism(std::move(name), star(corners, radius, radius), 2 * radius);
    const int ridge = corners / 2;
    Ring roof, other;
    for (int i = 0; i < corners; i++) {
        auto &p = m.points[static_cast<std::size_t>(corners + i)];
        p[2] += (p[0] - std::abs(p[1])) * 19 / 20 + (i % ridge == 0 ? 0 : i % 2 == 0 ? off : -off);
    }
    for (int i = 0; i <= ridge; i++) {
        roof.push_back(corners + i);
        other.push_back(corners + (ridge + i) % corners);
    }
    roof.push_back(roof[0]);
    other.push_back(other[0]);
    m.rings[1] = roof;
    m.rings.push_back(other);
    return m;
}

inline std::vector<Model> ten_buildings() {
    return {tetrahedron(),
            box(),
            gabled_house(),
            l_shape(),
            prism("40-corner roof", star(40, 9000, 15000), 6000),
            ball("ball, 256 triangles", 8, 16),
            prism("60-gon prism", star(60, 20000, 20000), 9000),
            prism("127-gon prism", star(127, 50000, 50000), 9000, 44),
            eight_rings(),
            steep_roofs("steep roofs of 40", 78, 9000, 13)};
}

// The load, then 50 moves by a millimetre, 50 turns (there and back) and 200 questions.
inline std::string with_corrections(const Model &m) {
    std::string text = load(m);
    std::vector<Place> now = m.points;
    const int points = static_cast<int>(m.points.size()), polygons = static_cast<int>(m.rings.size());
    std::uint32_t number = 0;
    int asked = 0;
    for (int k = 0; k < 50; k++) {
        const int which = k * 7 % points;
        auto &place = now[static_cast<std::size_t>(which)];
        place[static_cast<std::size_t>(k % 3)] += k % 2 == 0 ? 1 : -1;
        text += move(++number, which, place);
        for (int q = 0; q < 2; q++) text += question(asked++ % polygons);
        text += turn(++number, k / 2 * 5 % polygons);
        for (int q = 0; q < 2; q++) text += question(asked++ % polygons);
    }
    return text;
}

// The load, then 100 turns, each with a question on the polygon.
inline std::string with_turns(const Model &m) {
    std::string text = load(m);
    for (int k = 0; k < 100; k++) {
        const int which = k % static_cast<int>(m.rings.size());
        text += turn(static_cast<std::uint32_t>(k + 1), which) + question(which);
    }
    return text;
}

// Two points: the ends of a step that some ring makes, taken here and there and in either order, and now and then two that may share
// no edge.
inline std::pair<int, int> edge_to_ask(const Model &m, int k) {
    const auto &ring = m.rings[static_cast<std::size_t>(k * 37) % m.rings.size()];
    const std::size_t at = static_cast<std::size_t>(k * 11) % (ring.size() - 1);
    const int points = static_cast<int>(m.points.size()), a = ring[at], b = k % 10 == 9 ? (a + points / 2) % points : ring[at + 1];
    return k % 2 == 0 ? std::pair{a, b} : std::pair{b, a};
}

constexpr int edge_questions = 300;

// The load, then edge questions.
inline std::string with_edge_questions(const Model &m) {
    std::string text = load(m);
    for (int k = 0; k < edge_questions; k++) {
        const auto [a, b] = edge_to_ask(m, k);
        text += across(a, b);
    }
    return text;
}

// ---- random streams -----------------------------------------------------------------------------------------------

class Random {
  public:
    explicit Random(std::uint64_t seed) : state(seed) {}

    std::uint64_t next() {
        std::uint64_t z = state += 0x9E3779B97F4A7C15u;
        z = (z ^ (z >> 30)) * 0xBF58476D1CE4E5B9u;
        z = (z ^ (z >> 27)) * 0x94D049BB133111EBu;
        return z ^ (z >> 31);
    }

    int below(int n) { return n <= 0 ? 0 : static_cast<int>(next() % static_cast<std::uint64_t>(n)); }
    int from_to(int least, int most) { return least + below(most - least + 1); }
    bool one_in(int n) { return below(n) == 0; }

  private:
    std::uint64_t state;
};

template <typename T> void shuffle(std::vector<T> &list, Random &r) {
    for (std::size_t i = list.size(); i > 1; i--) std::swap(list[i - 1], list[static_cast<std::size_t>(r.below(static_cast<int>(i)))]);
}

// The same building with its points and polygons numbered at random.
inline Model renumbered(Model m, Random &r) {
    std::vector<std::size_t> order(m.points.size());
    for (std::size_t k = 0; k < order.size(); k++) order[k] = k;
    shuffle(order, r);
    std::vector<int> number(order.size());
    std::vector<Place> points;
    for (std::size_t k = 0; k < order.size(); k++) {
        number[order[k]] = static_cast<int>(k);
        points.push_back(m.points[order[k]]);
    }
    for (auto &ring : m.rings)
        for (int &entry : ring)
            if (static_cast<std::size_t>(entry) < number.size()) entry = number[static_cast<std::size_t>(entry)];
    m.points = std::move(points);
    shuffle(m.rings, r);
    return m;
}

// Both in one building, the second 50 m further along x: 0B names the second one's first polygon.
inline Model beside(std::string name, Model m, const Model &other) {
    m.name = std::move(name);
    const int before = static_cast<int>(m.points.size());
    for (const auto &p : other.points) m.points.push_back({p[0] + 50000, p[1], p[2]});
    for (Ring ring : other.rings) {
        for (int &entry : ring) entry += before;
        m.rings.push_back(ring);
    }
    return m;
}

// Two balls of 128 triangles in one building.
inline Model two_balls() { return beside("two balls", ball("", 4, 16), ball("", 4, 16)); }

// Loads in which what is across an edge is anywhere in the tables, so that 0B and 0C have no order to go by; the last two are in
// pieces, one of them in order.
inline std::vector<Model> numbered_at_random() {
    Random r(1);
    std::vector<Model> all;
    for (const auto &m : {ball("ball, 256 triangles", 8, 16), prism("127-gon prism", star(127, 50000, 50000), 9000, 44),
                          tower("40-storey tower", 40), two_balls()})
        all.push_back(renumbered(m, r));
    all.push_back(two_balls());
    all.back().name += ", in order";
    return all;
}

// The surface of a random heap of cubes: closed, and often pinched at an edge (09) or a point (0C), or in pieces (0B).
inline Model cubes(Random &r) {
    Model m{"cubes", r.below(20), {}, {}};
    const int nx = r.from_to(1, 3), ny = r.from_to(1, 3), nz = r.from_to(1, 3), full = r.from_to(2, 9);
    std::array<std::array<std::array<bool, 5>, 5>, 5> solid{};
    for (int x = 1; x <= nx; x++)
        for (int y = 1; y <= ny; y++)
            for (int z = 1; z <= nz; z++)
                solid[static_cast<std::size_t>(x)][static_cast<std::size_t>(y)][static_cast<std::size_t>(z)] = r.below(10) < full;
    const auto is = [&](int x, int y, int z) {
        return solid[static_cast<std::size_t>(x)][static_cast<std::size_t>(y)][static_cast<std::size_t>(z)];
    };
    std::map<Place, int> numbers;
    const int scale = r.one_in(4) ? 1 : r.from_to(1, 20000);
    const auto corner = [&](int x, int y, int z) {
        const Place at{x * scale, y * scale, z * scale};
        const auto [it, fresh] = numbers.try_emplace(at, static_cast<int>(m.points.size()));
        if (fresh) m.points.push_back(at);
        return it->second;
    };
    for (int x = 1; x <= nx; x++) {
        for (int y = 1; y <= ny; y++) {
            for (int z = 1; z <= nz; z++) {
                if (!is(x, y, z)) continue;
                const auto quad = [&](std::array<Place, 4> q) {
                    Ring ring;
                    for (const auto &c : q) ring.push_back(corner(x + c[0], y + c[1], z + c[2]));
                    const int shift = r.below(4);
                    std::rotate(ring.begin(), ring.begin() + shift, ring.end());
                    if (r.one_in(6)) { // two triangles
                        m.rings.push_back({ring[0], ring[1], ring[2], ring[0]});
                        m.rings.push_back({ring[0], ring[2], ring[3], ring[0]});
                        return;
                    }
                    ring.push_back(ring[0]);
                    m.rings.push_back(ring);
                };
                if (!is(x - 1, y, z)) quad({{{0, 0, 0}, {0, 0, 1}, {0, 1, 1}, {0, 1, 0}}});
                if (!is(x + 1, y, z)) quad({{{1, 0, 0}, {1, 1, 0}, {1, 1, 1}, {1, 0, 1}}});
                if (!is(x, y - 1, z)) quad({{{0, 0, 0}, {1, 0, 0}, {1, 0, 1}, {0, 0, 1}}});
                if (!is(x, y + 1, z)) quad({{{0, 1, 0}, {0, 1, 1}, {1, 1, 1}, {1, 1, 0}}});
                if (!is(x, y, z - 1)) quad({{{0, 0, 0}, {0, 1, 0}, {1, 1, 0}, {1, 0, 0}}});
                if (!is(x, y, z + 1)) quad({{{0, 0, 1}, {1, 0, 1}, {1, 1, 1}, {0, 1, 1}}});
            }
        }
    }
    for (std::size_t i = m.rings.size(); i > 1; i--)
        std::swap(m.rings[i - 1], m.rings[static_cast<std::size_t>(r.below(static_cast<int>(i)))]);
    return m;
}

// Random rings over a few points of a small grid: most findings, many of them by a hair.
inline Model scribble(Random &r) {
    Model m{"scribble", r.one_in(2) ? 0 : r.below(4), {}, {}};
    const int points = r.from_to(3, 12), grid = r.from_to(1, 5), step = r.one_in(3) ? 1000 : r.from_to(1, 20000);
    const int flat = r.below(4); // the axis in which all lie in one plane, or none
    for (int i = 0; i < points; i++) {
        Place p{};
        for (std::size_t a = 0; a < 3; a++) p[a] = static_cast<int>(a) == flat ? 0 : step * r.from_to(-grid, grid);
        if (flat < 3 && r.one_in(8)) p[static_cast<std::size_t>(flat)] = r.from_to(-3, 3);
        if (std::find(m.points.begin(), m.points.end(), p) == m.points.end()) m.points.push_back(p);
    }
    const int count = static_cast<int>(m.points.size()), rings = r.from_to(0, 6);
    for (int k = 0; k < rings; k++) {
        Ring ring;
        const int n = r.one_in(5) ? r.below(8) : r.from_to(3, 7);
        std::vector<int> all(static_cast<std::size_t>(count));
        for (int i = 0; i < count; i++) all[static_cast<std::size_t>(i)] = i;
        for (int i = 0; i < n; i++) {
            const int j = r.from_to(std::min(i, count - 1), count - 1);
            if (i < count) std::swap(all[static_cast<std::size_t>(i)], all[static_cast<std::size_t>(j)]);
            ring.push_back(i < count && !r.one_in(25) ? all[static_cast<std::size_t>(i)] : r.below(count));
        }
        if (!ring.empty() && !r.one_in(12)) ring.push_back(ring[0]);
        m.rings.push_back(ring);
    }
    return m;
}

// A ring on the plane of direction (a, b, c), its corners in the plane and `lifted` times that direction off it in turn, so that N is
// the plane's own. The axes come in any order and either direction.
inline void add_saddle(Model &m, const std::array<int, 4> &plane, int lifted, Random &r) {
    const int a = plane[0], b = plane[1], c = plane[2];
    const int corners = 2 * r.from_to(2, r.one_in(4) ? 20 : 4), most = r.one_in(2) ? 6000 : 300, axis = r.below(3);
    const Place from{r.from_to(-20000, 20000), r.from_to(-20000, 20000), r.from_to(-20000, 20000)};
    const Place way{r.one_in(2) ? 1 : -1, r.one_in(2) ? 1 : -1, r.one_in(2) ? 1 : -1};
    Ring ring;
    for (const auto &[u, v] : star(corners, r.from_to(most / 2, most), most)) {
        const int off = static_cast<int>(ring.size()) % 2 == 1 ? lifted : 0;
        Place p{b * u + c * v + off * a, off * b - a * u, off * c - a * v};
        std::rotate(p.begin(), p.begin() + axis, p.end());
        for (std::size_t i = 0; i < 3; i++) p[i] = from[i] + way[i] * p[i];
        ring.push_back(static_cast<int>(m.points.size()));
        m.points.push_back(p);
    }
    if (r.one_in(4)) m.points.back()[static_cast<std::size_t>(r.below(3))] += r.one_in(2) ? 1 : -1;
    ring.push_back(ring[0]);
    m.rings.push_back(ring);
}

// Check 06 at equality and on both sides of it, on steep planes: the length of each direction below is a whole number, the tolerance
// is the corners' distance, one less or one more, and now and then a corner is a millimetre off.
inline Model saddles(Random &r) {
    constexpr std::array<std::array<int, 4>, 8> planes{{{3, 4, 0, 5}, {3, 0, 4, 5}, {1, 2, 2, 3}, {2, 3, 6, 7}, {1, 4, 8, 9}, {4, 4, 7, 9},
                                                        {2, 6, 9, 11}, {3, 4, 12, 13}}};
    const auto &plane = planes[static_cast<std::size_t>(r.below(8))];
    const int lifted = r.from_to(1, r.one_in(3) ? 1000 / plane[3] : 4), rings = r.from_to(1, 5);
    Model m{"saddles", lifted * plane[3] + (r.one_in(2) ? 0 : r.one_in(2) ? 1 : -1), {}, {}};
    for (int k = 0; k < rings; k++) add_saddle(m, plane, lifted, r);
    return m;
}

// A horseshoe of cubes whose ends touch at one point only: hangs together across edges and is pinched there (0C).
inline Model horseshoe(Random &r) {
    Model m{"horseshoe", r.below(20), {}, {}};
    const std::vector<Place> solid{{0, 0, 0}, {-1, 0, 0}, {-1, 0, 1}, {-1, 0, 2}, {-1, 1, 2}, {0, 1, 2}, {1, 1, 2}, {1, 1, 1}};
    const std::size_t kept = r.one_in(6) ? solid.size() - 1 : solid.size(); // one cube less and nothing touches
    std::map<Place, int> numbers;
    const std::array<Place, 6> sides{{{-1, 0, 0}, {1, 0, 0}, {0, -1, 0}, {0, 1, 0}, {0, 0, -1}, {0, 0, 1}}};
    for (std::size_t k = 0; k < kept; k++) {
        for (std::size_t d = 0; d < 6; d++) {
            const Place c = solid[k], beyond{c[0] + sides[d][0], c[1] + sides[d][1], c[2] + sides[d][2]};
            if (std::find(solid.begin(), solid.begin() + static_cast<std::ptrdiff_t>(kept), beyond) !=
                solid.begin() + static_cast<std::ptrdiff_t>(kept))
                continue;
            const std::size_t axis = d / 2, u = (axis + 1) % 3, v = (axis + 2) % 3;
            std::array<Place, 4> q{c, c, c, c};
            for (auto &corner : q) corner[axis] += d % 2 == 1 ? 1 : 0;
            q[1][u]++, q[2][u]++, q[2][v]++, q[3][v]++;
            if (d % 2 == 0) std::reverse(q.begin(), q.end());
            Ring ring;
            for (const auto &corner : q) {
                const auto [it, fresh] = numbers.try_emplace(corner, static_cast<int>(m.points.size()));
                if (fresh) m.points.push_back({corner[0] * 1000, corner[1] * 1000, corner[2] * 1000});
                ring.push_back(it->second);
            }
            ring.push_back(ring[0]);
            m.rings.push_back(ring);
        }
    }
    return m;
}

// Tables at their bounds and one beyond: 513 points, 257 polygons, 1,025 entries, rings of 128 and 129.
inline Model brim(Random &r) {
    Model m{"brim", r.from_to(0, 1000), {}, {}};
    const int points = r.one_in(2) ? r.from_to(511, 514) : 130;
    for (int i = 0; i < points; i++) m.points.push_back({i % 23 * 1000, i / 23 * 1000, i * i % 7});
    const bool few = r.one_in(2);
    const int rings = few ? 9 : r.from_to(254, 259), longest = few ? r.from_to(127, 129) : 4;
    for (int k = 0; k < rings; k++) {
        Ring ring;
        const int n = few && k == 8 ? r.below(12) : longest;
        for (int i = 0; i + 1 < n; i++) ring.push_back((i + k) % std::min(points, 512));
        if (n > 0) ring.push_back(ring.empty() ? 0 : ring[0]);
        m.rings.push_back(ring);
    }
    return m;
}

inline Model any_model(Random &r) {
    if (r.one_in(25)) return brim(r);
    switch (r.below(14)) {
    case 13: {
        const int rings = r.from_to(1, 4), around = r.from_to(3, 8), storeys = r.from_to(1, 20);
        return beside("two solids", ball("", rings, around), tower("", storeys));
    }
    case 10: return horseshoe(r);
    case 11: return saddles(r);
    case 12: {
        const int corners = 2 * r.from_to(2, 25), radius = r.from_to(100, 30000);
        return steep_roofs("steep roofs", corners, radius, r.from_to(0, 25));
    }
    case 0: return tetrahedron();
    case 1: return r.one_in(2) ? box() : gabled_house();
    case 2: return l_shape();
    case 3: {
        const int n = r.from_to(3, 40), out = r.from_to(50, 40000);
        return prism("prism", star(n, r.one_in(2) ? out : std::max(10, out - r.below(out)), out), r.from_to(1, 9000), r.below(n));
    }
    case 4: return r.one_in(8) ? ten_buildings()[static_cast<std::size_t>(r.from_to(4, 9))] : ball("ball", r.from_to(1, 3), r.from_to(3, 8));
    case 5:
    case 6: return cubes(r);
    default: return scribble(r);
    }
}

// An entry comes twice in a row: a step from a number to itself.
inline void stutter(Ring &ring, Random &r) {
    if (ring.empty()) return;
    const int at = r.below(static_cast<int>(ring.size()));
    ring.insert(ring.begin() + at, ring[static_cast<std::size_t>(at)]);
}

// A step is made, taken back and made again: its edge has three uses of one ring.
inline void there_and_back(Ring &ring, Random &r) {
    if (ring.size() < 2) return;
    const int at = r.below(static_cast<int>(ring.size()) - 1);
    const int from = ring[static_cast<std::size_t>(at)], to = ring[static_cast<std::size_t>(at) + 1];
    ring.insert(ring.begin() + at, {from, to});
}

// Small faults in the tables themselves.
inline void disturb(Model &m, Random &r) {
    const int times = r.one_in(2) ? 0 : r.from_to(1, 3);
    for (int t = 0; t < times && !m.rings.empty(); t++) {
        auto &ring = m.rings[static_cast<std::size_t>(r.below(static_cast<int>(m.rings.size())))];
        switch (r.below(9)) {
        case 0: std::reverse(ring.begin(), ring.end()); break;
        case 1: std::swap(ring, m.rings.back()); m.rings.pop_back(); break;
        case 2: m.rings.push_back(ring); break;
        case 3: if (!ring.empty()) ring.pop_back(); break;
        case 4: if (!ring.empty()) ring[static_cast<std::size_t>(r.below(static_cast<int>(ring.size())))] = r.below(static_cast<int>(m.points.size()) + 1); break;
        case 5:
            if (ring.size() > 2) std::swap(ring[1], ring[ring.size() - 2]);
            break;
        case 6: stutter(ring, r); break;
        case 7: there_and_back(ring, r); break;
        default: {
            auto &p = m.points[static_cast<std::size_t>(r.below(static_cast<int>(m.points.size())))];
            p[static_cast<std::size_t>(r.below(3))] += r.from_to(-30, 30);
        }
        }
    }
}

inline Place any_place(const Model &m, Random &r) {
    if (m.points.empty() || r.one_in(12)) return {r.from_to(-100001, 100001), r.from_to(-5, 5), r.from_to(99999, 100001)};
    Place p = m.points[static_cast<std::size_t>(r.below(static_cast<int>(m.points.size())))];
    switch (r.below(5)) {
    case 0: break;
    case 1: p[static_cast<std::size_t>(r.below(3))] += r.from_to(-3, 3); break;
    case 2: p[static_cast<std::size_t>(r.below(3))] += r.from_to(-3000, 3000); break;
    case 3: {
        const Place q = m.points[static_cast<std::size_t>(r.below(static_cast<int>(m.points.size())))];
        for (std::size_t a = 0; a < 3; a++) p[a] = (p[a] + q[a]) / 2;
        break;
    }
    default:
        for (auto &c : p) c += r.from_to(-50, 50);
    }
    return p;
}

// Two points to ask for: mostly a step that some ring makes, in either order, else any two, equal or unknown ones too.
inline std::pair<int, int> any_edge(const Model &m, Random &r) {
    const int points = static_cast<int>(m.points.size());
    int a = r.below(points + (r.one_in(15) ? 1 : 0)), b = r.one_in(10) ? a : r.below(points + (r.one_in(15) ? 1 : 0));
    if (r.one_in(60)) a = r.one_in(2) ? 0xFFFF : 512;
    if (!m.rings.empty() && !r.one_in(4)) {
        const auto &ring = m.rings[static_cast<std::size_t>(r.below(static_cast<int>(m.rings.size())))];
        const auto at = static_cast<std::size_t>(r.below(static_cast<int>(ring.size()) - 1));
        if (ring.size() >= 2) a = ring[at], b = ring[at + 1];
    }
    return r.one_in(2) ? std::pair{a, b} : std::pair{b, a};
}

inline std::string any_edge_question(const Model &m, Random &r) {
    const auto [a, b] = any_edge(m, r);
    return across(a, b);
}

// Edge questions between a load's lines, where no building is held or the one before is dropped.
inline void ask_early(std::string &load, const Model &m, Random &r) {
    for (int times = r.from_to(1, 3); times > 0; times--) {
        const std::size_t end = load.find('\n', static_cast<std::size_t>(r.below(static_cast<int>(load.size()))));
        load.insert(r.one_in(4) || end == std::string::npos ? 0 : end + 1, any_edge_question(m, r));
    }
}

inline std::string any_correction(const Model &m, std::uint32_t &number, Random &r) {
    const int points = static_cast<int>(m.points.size()), polygons = static_cast<int>(m.rings.size());
    std::uint32_t n = number + static_cast<std::uint32_t>(r.from_to(1, 3));
    if (r.one_in(8)) n = number - static_cast<std::uint32_t>(r.below(3));
    if (r.one_in(200)) n = 0xFFFFFFFFu;
    if (n > number && !r.one_in(30)) number = n;
    const int slack = r.one_in(15) ? 1 : 0;
    if (r.one_in(3)) return turn(n, r.below(polygons + slack));
    if (r.one_in(4)) return question(r.below(polygons + slack));
    if (r.one_in(4)) return any_edge_question(m, r);
    const int which = r.below(points + slack);
    Place to = any_place(m, r);
    if (which < points && !r.one_in(3)) { // near where it was loaded
        to = m.points[static_cast<std::size_t>(which)];
        if (!r.one_in(4)) to[static_cast<std::size_t>(r.below(3))] += r.from_to(-40, 40);
    }
    return move(n, which, to);
}

inline void damage(std::string &text, Random &r) {
    const std::string alphabet = "0123456789ABCDEF0123456789ABCDEFabcdefGZ \r\n\n\t";
    const int times = r.from_to(1, 5);
    for (int t = 0; t < times && !text.empty(); t++) {
        const auto at = static_cast<std::size_t>(r.below(static_cast<int>(text.size())));
        switch (r.below(6)) {
        case 0: text[at] = static_cast<char>(r.below(256)); break;
        case 1: text[at] = alphabet[static_cast<std::size_t>(r.below(static_cast<int>(alphabet.size())))]; break;
        case 2: text.erase(at, static_cast<std::size_t>(r.from_to(1, 4))); break;
        case 3: text.insert(at, 1, alphabet[static_cast<std::size_t>(r.below(static_cast<int>(alphabet.size())))]); break;
        case 4: { // a line comes twice
            const auto from = text.rfind('\n', at) == std::string::npos ? 0 : text.rfind('\n', at) + 1;
            const auto to = std::min(text.find('\n', from), text.size() - 1) + 1;
            text.insert(to, text.substr(from, to - from));
            break;
        }
        default: if (r.one_in(4)) text.resize(at);
        }
    }
}

// One stream from a number: one to three loads with corrections and questions of both kinds, sometimes out of order, sometimes damaged.
inline std::string any_stream(std::uint64_t seed) {
    Random r(seed);
    std::string text;
    const int loads = r.one_in(5) ? r.from_to(2, 3) : 1;
    for (int l = 0; l < loads; l++) {
        Model m = any_model(r);
        if (r.one_in(4)) m = renumbered(m, r);
        disturb(m, r);
        if (r.one_in(3)) m.tolerance = r.one_in(4) ? r.from_to(999, 1001) : r.below(60);
        std::string now = load(m);
        if (r.one_in(m.name == "brim" ? 2 : 8)) { // frames at the end of a load that two rules may refuse
            now.resize(now.size() - 3);
            for (int extra = r.from_to(1, 4); extra > 0; extra--)
                now += r.one_in(2) ? point(r.one_in(3) ? Place{0, 100001, 0} : any_place(m, r)) : polygon({r.one_in(2) ? 600 : 0, 1, 2, 0});
            now += end_of_load();
        }
        if (r.one_in(12)) now = now.substr(0, now.size() - 3); // no end of load
        if (r.one_in(10)) ask_early(now, m, r);
        if (r.one_in(12)) now += point(any_place(m, r)) + polygon({0, 1, 2, 0});
        std::uint32_t number = r.one_in(20) ? 0xFFFFFFF0u : 0;
        const int corrections = r.one_in(4) ? 0 : r.below(r.one_in(5) ? 120 : 25);
        for (int c = 0; c < corrections; c++) now += any_correction(m, number, r);
        const int asked = std::min(static_cast<int>(m.rings.size()), r.below(12));
        for (int p = 0; p < asked; p++) now += question(p);
        for (int k = r.one_in(2) ? r.below(20) : 0; k > 0; k--) now += any_edge_question(m, r);
        text += now;
    }
    if (r.one_in(40)) // about the bounds of the stream
        while (text.size() < 65500 && std::count(text.begin(), text.end(), '\n') < 1022) text += r.one_in(4) ? "\n" : text.substr(0, static_cast<std::size_t>(r.below(200))) + "\n";
    if (r.one_in(40)) text.resize(std::max<std::size_t>(text.size(), static_cast<std::size_t>(r.from_to(65530, 65540))), '0');
    if (r.one_in(40)) text.insert(0, std::string(static_cast<std::size_t>(r.below(1000)), '\n'));
    if (r.one_in(3)) damage(text, r);
    if (r.one_in(10) && !text.empty()) text.pop_back();
    return text;
}

} // namespace streams

#endif
