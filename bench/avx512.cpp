// The third baseline: loads by hand-written AVX-512. All digits of the stream are turned into bytes first, 64 at
// a time; rings are told apart by boxes, 16 edges at a time; edges are matched along chains by their smaller end. A stream that has
// anything but a load without refusals, and a building that fails 01, 02, 07 to 0A or 0C, is answered by the plain baseline.
#include "baselines.h"
#include "distance.hpp"

#include <algorithm>
#include <cstdlib>
#include <cstring>
#include <immintrin.h>

namespace {

using i32 = std::int32_t;
using i64 = std::int64_t;
using u8 = std::uint8_t;
using u16 = std::uint16_t;
using u32 = std::uint32_t;
using u64 = std::uint64_t;

#define BY_AVX512 __attribute__((target("avx512f,avx512bw,avx512vl,avx512dq,avx512vbmi,avx512vbmi2,bmi2,popcnt")))

constexpr u16 none = 0xFFFF;

struct Tables {
    int points = 0, polygons = 0, entries = 0, tolerance = 0;
    i32 x[512], y[512], z[512];
    int start[257];
    u16 entry[1024];
};

struct Report {
    u32 check = 0, a = 0, b = 0, faulty = 0;
    i64 six_volume = 0;
};

// One of 03 to 06, or 0, and where: of 03 and 06 an entry, of 05 an edge, else 0.
struct Finding {
    u32 check, position;
};

// ---- one ring -----------------------------------------------------------------------------------------------------

inline int sign(i64 v) { return (v > 0) - (v < 0); }

inline bool within(i64 au, i64 av, i64 bu, i64 bv, i64 pu, i64 pv) {
    return std::min(au, bu) <= pu && pu <= std::max(au, bu) && std::min(av, bv) <= pv && pv <= std::max(av, bv);
}

// Whether two edges share a point.
inline bool meet(i64 au, i64 av, i64 bu, i64 bv, i64 cu, i64 cv, i64 du, i64 dv) {
    const int c = sign((bu - au) * (cv - av) - (bv - av) * (cu - au)), d = sign((bu - au) * (dv - av) - (bv - av) * (du - au));
    const int a = sign((du - cu) * (av - cv) - (dv - cv) * (au - cu)), b = sign((du - cu) * (bv - cv) - (dv - cv) * (bu - cu));
    if (c * d < 0 && a * b < 0) return true;
    return (c == 0 && within(au, av, bu, bv, cu, cv)) || (d == 0 && within(au, av, bu, bv, du, dv)) ||
           (a == 0 && within(cu, cv, du, dv, au, av)) || (b == 0 && within(cu, cv, du, dv, bu, bv));
}

// A ring's corners in the plane that is left, and the numbers of the next ones.
struct Outline {
    const i32 *u, *v;
    int corners;
    int after(int i) const { return i + 1 == corners ? 0 : i + 1; }
    bool folds(int i) const { // edge i and the next go back over one line
        const int j = after(i), k = after(j);
        const i64 au = u[i] - u[j], av = v[i] - v[j], bu = u[k] - u[j], bv = v[k] - v[j];
        return au * bv == av * bu && au * bu + av * bv > 0;
    }
    bool meets(int i, int k) const {
        const int j = after(i), l = after(k);
        return meet(u[i], v[i], u[j], v[j], u[k], v[k], u[l], v[l]);
    }
};

// The least edge that has a forbidden meeting, or none. Neighbours are asked of edge 0 alone: where two others go back over each
// other, an edge before them meets one of them, or the first of them the next but one.
inline bool folds_at_0(const Outline &o) { return o.folds(0) || o.folds(o.corners - 1); }

int meeting_of_few(const Outline &o) {
    if (folds_at_0(o)) return 0;
    for (int i = 0; i < o.corners; i++)
        for (int k = i + 2; k < o.corners - (i == 0); k++)
            if (o.meets(i, k)) return i;
    return none;
}

BY_AVX512 int meeting_of_many(const Outline &o) {
    if (folds_at_0(o)) return 0;
    alignas(64) i32 low_u[144], high_u[144], low_v[144], high_v[144];
    for (int i = 0; i < o.corners; i++) {
        const int j = o.after(i);
        low_u[i] = std::min(o.u[i], o.u[j]);
        high_u[i] = std::max(o.u[i], o.u[j]);
        low_v[i] = std::min(o.v[i], o.v[j]);
        high_v[i] = std::max(o.v[i], o.v[j]);
    }
    for (int i = 0; i < o.corners; i++) {
        const int end = o.corners - (i == 0);
        const __m512i lu = _mm512_set1_epi32(low_u[i]), hu = _mm512_set1_epi32(high_u[i]);
        const __m512i lv = _mm512_set1_epi32(low_v[i]), hv = _mm512_set1_epi32(high_v[i]);
        for (int k = i + 2; k < end; k += 16) {
            __mmask16 near = end - k >= 16 ? __mmask16{0xFFFF} : static_cast<__mmask16>((1u << (end - k)) - 1);
            near = _mm512_mask_cmple_epi32_mask(near, _mm512_loadu_si512(low_u + k), hu);
            near = _mm512_mask_cmpge_epi32_mask(near, _mm512_loadu_si512(high_u + k), lu);
            near = _mm512_mask_cmple_epi32_mask(near, _mm512_loadu_si512(low_v + k), hv);
            near = _mm512_mask_cmpge_epi32_mask(near, _mm512_loadu_si512(high_v + k), lv);
            for (u32 left = near; left != 0; left &= left - 1)
                if (o.meets(i, k + __builtin_ctz(left))) return i;
        }
    }
    return none;
}

// A triangle's finding and its part.
inline Finding look_at_triangle(const Tables &t, const u16 *ring, i64 &part) {
    const int f = ring[0], a = ring[1], b = ring[2];
    const i64 fx = t.x[f], fy = t.y[f], fz = t.z[f];
    const i64 ax = t.x[a] - fx, ay = t.y[a] - fy, az = t.z[a] - fz, bx = t.x[b] - fx, by = t.y[b] - fy, bz = t.z[b] - fz;
    const i64 nx = ay * bz - az * by, ny = az * bx - ax * bz, nz = ax * by - ay * bx;
    part = nx * fx + ny * fy + nz * fz;
    if ((nx | ny | nz) != 0) return {0, 0}; // then its numbers differ
    if (a == f) return {3, 1};
    return b == f || b == a ? Finding{3, 2} : Finding{4, 0};
}

// The least entry whose number stood earlier, or none.
inline int repeated_entry(const u16 *ring, int corners) {
    u64 met[8] = {0};
    for (int i = 0; i < corners; i++) {
        const u64 bit = u64{1} << (ring[i] & 63);
        if ((met[ring[i] >> 6] & bit) != 0) return i;
        met[ring[i] >> 6] |= bit;
    }
    return none;
}

// The finding of a ring of four corners or more that passes 01 and 02, and its part.
BY_AVX512 Finding look(const Tables &t, int polygon, i64 &part) {
    const u16 *ring = t.entry + t.start[polygon];
    const int corners = t.start[polygon + 1] - t.start[polygon] - 1;
    const i32 fx = t.x[ring[0]], fy = t.y[ring[0]], fz = t.z[ring[0]];
    alignas(64) i32 way[3][144];
    for (int i = 0; i < corners; i++) {
        way[0][i] = t.x[ring[i]] - fx;
        way[1][i] = t.y[ring[i]] - fy;
        way[2][i] = t.z[ring[i]] - fz;
    }
    i64 nx = 0, ny = 0, nz = 0;
    for (int i = 1; i + 1 < corners; i++) {
        const i64 ax = way[0][i], ay = way[1][i], az = way[2][i], bx = way[0][i + 1], by = way[1][i + 1], bz = way[2][i + 1];
        nx += ay * bz - az * by;
        ny += az * bx - ax * bz;
        nz += ax * by - ay * bx;
    }
    part = nx * fx + ny * fy + nz * fz;
    if (const int entry = repeated_entry(ring, corners); entry != none) return {3, static_cast<u32>(entry)};
    if ((nx | ny | nz) == 0) return {4, 0};
    const i64 ax = std::llabs(nx), ay = std::llabs(ny), az = std::llabs(nz);
    const int drop = ax >= ay && ax >= az ? 0 : ay >= az ? 1 : 2;
    const Outline outline{way[drop == 0 ? 1 : 0], way[drop == 2 ? 1 : 2], corners};
    const int edge = corners <= 6 ? meeting_of_few(outline) : meeting_of_many(outline);
    if (edge != none) return {5, static_cast<u32>(edge)};
    const auto off = [&](int i) { return std::llabs(nx * way[0][i] + ny * way[1][i] + nz * way[2][i]); };
    i64 most = 0;
    for (int i = 1; i < corners; i++) most = std::max<i64>(most, off(i));
    if (!distance::is_uneven(most, ax, ay, az, t.tolerance)) return {0, 0};
    u32 entry = 1; // the farthest fails, so that one is found
    while (!distance::is_uneven(off(static_cast<int>(entry)), ax, ay, az, t.tolerance)) entry++;
    return {6, entry};
}

// ---- all rings ----------------------------------------------------------------------------------------------------

// What is known of the step that leaves an entry: the other use of its edge, its polygon, and the step before it in the ring.
struct Steps {
    u16 twin[1024], before[1024];
    u8 owner[1024];
};

// Fills the steps where every edge is used once each way; else false.
bool pair_edges(const Tables &t, Steps &s) {
    struct Edge {
        u16 high, user, next;
        u8 uses, forward;
    };
    Edge edges[1024];
    u16 head[512];
    std::memset(head, 0xFF, sizeof(u16) * static_cast<std::size_t>(t.points));
    int count = 0, single = 0;
    for (int p = 0; p < t.polygons; p++) {
        for (int i = t.start[p]; i + 1 < t.start[p + 1]; i++) {
            const u16 a = t.entry[i], b = t.entry[i + 1], low = std::min(a, b), high = std::max(a, b);
            s.owner[i] = static_cast<u8>(p);
            s.before[i] = static_cast<u16>(i - 1);
            u16 e = head[low];
            while (e != none && edges[e].high != high) e = edges[e].next;
            if (e == none) {
                edges[count] = {high, static_cast<u16>(i), head[low], 1, static_cast<u8>(a < b)};
                head[low] = static_cast<u16>(count++);
                single++;
                continue;
            }
            if (++edges[e].uses > 2 || edges[e].forward == (a < b)) return false;
            single--;
            s.twin[i] = edges[e].user;
            s.twin[edges[e].user] = static_cast<u16>(i);
        }
        s.before[t.start[p]] = static_cast<u16>(t.start[p + 1] - 2);
    }
    return single == 0;
}

// The lowest polygon that polygon 0 does not reach, or their number.
int first_apart(const Tables &t, const Steps &s) {
    bool seen[256] = {false};
    u8 stack[256];
    int height = 1;
    stack[0] = 0;
    seen[0] = true;
    while (height > 0) {
        const int p = stack[--height];
        for (int i = t.start[p]; i + 1 < t.start[p + 1]; i++) {
            const u8 q = s.owner[s.twin[i]];
            if (seen[q]) continue;
            seen[q] = true;
            stack[height++] = q;
        }
    }
    return static_cast<int>(std::find(seen, seen + t.polygons, false) - seen);
}

// Whether the corners at each point are one round: there are as many rounds as used points.
bool all_linked(const Tables &t, const Steps &s) {
    bool used[512] = {false}, passed[1024] = {false};
    int points = 0, rounds = 0;
    for (int p = 0; p < t.polygons; p++) {
        for (int i = t.start[p]; i + 1 < t.start[p + 1]; i++) {
            points += !used[t.entry[i]];
            used[t.entry[i]] = true;
            if (passed[i]) continue;
            rounds++;
            for (int k = i; !passed[k]; k = s.twin[s.before[k]]) passed[k] = true;
        }
    }
    return points == rounds;
}

// The report, where it is one that this program gives.
bool check(const Tables &t, Report &r) {
    for (int p = 0; p < t.polygons; p++) {
        const u16 *first = t.entry + t.start[p], *end = t.entry + t.start[p + 1];
        if (end - first < 4 || end[-1] != first[0]) return false;
        i64 part = 0;
        const Finding found = end - first == 4 ? look_at_triangle(t, first, part) : look(t, p, part);
        r.six_volume += part;
        if (found.check != 0 && r.faulty++ == 0) r.check = found.check, r.a = static_cast<u32>(p), r.b = found.position;
    }
    if (r.faulty != 0) return true;
    Steps steps;
    if (t.polygons < 4 || !pair_edges(t, steps)) return false;
    const int apart = first_apart(t, steps);
    if (apart < t.polygons) r.check = 0x0B, r.a = static_cast<u32>(apart);
    else if (!all_linked(t, steps)) return false;
    else if (r.six_volume <= 0) r.check = 0x0D;
    return true;
}

// ---- the stream ---------------------------------------------------------------------------------------------------

// The digits of a stream two a byte, and where its lines end; false where that is not all there is.
struct Digits {
    u8 values[65536 + 128], bytes[33000];
    u16 ends[1025];
    std::size_t lines = 0;

    BY_AVX512 bool read(const u8 *stream, std::size_t size) {
        const __m512i feed = _mm512_set1_epi8('\n'), zero = _mm512_set1_epi8('0'), letter = _mm512_set1_epi8('A' - 10);
        const __m512i ten = _mm512_set1_epi8(10), six = _mm512_set1_epi8(6), pair = _mm512_set1_epi16(0x0110);
        std::size_t count = 0;
        __mmask64 bad = 0;
        lines = 0;
        for (std::size_t i = 0; i < size; i += 64) {
            const __mmask64 in = size - i >= 64 ? ~__mmask64{0} : (__mmask64{1} << (size - i)) - 1;
            const __m512i text = _mm512_maskz_loadu_epi8(in, stream + i);
            const __mmask64 feeds = _mm512_mask_cmpeq_epi8_mask(in, text, feed), kept = in & ~feeds;
            const __m512i low = _mm512_sub_epi8(text, zero), high = _mm512_sub_epi8(text, letter);
            const __mmask64 is_low = _mm512_cmplt_epu8_mask(low, ten), is_high = _mm512_cmplt_epu8_mask(_mm512_sub_epi8(high, ten), six);
            bad |= kept & ~(is_low | is_high);
            _mm512_storeu_si512(values + count, _mm512_maskz_compress_epi8(kept, _mm512_mask_mov_epi8(high, is_low, low)));
            count += static_cast<std::size_t>(_mm_popcnt_u64(kept));
            for (u64 left = feeds; left != 0; left &= left - 1) {
                if (lines == 1024) return false;
                ends[lines++] = static_cast<u16>(i + static_cast<std::size_t>(__builtin_ctzll(left)));
            }
        }
        if (bad != 0 || size == 0 || stream[size - 1] != '\n') return false;
        for (std::size_t i = 0; i < count; i += 64)
            _mm256_storeu_si256(reinterpret_cast<__m256i *>(bytes + i / 2),
                                _mm512_maskz_cvtepi16_epi8(~__mmask32{0}, _mm512_maddubs_epi16(_mm512_loadu_si512(values + i), pair)));
        return true;
    }
};

inline i32 number(const u8 *p) {
    u32 v;
    std::memcpy(&v, p, 4);
    return static_cast<i32>(__builtin_bswap32(v));
}

inline bool far(i32 v) { return v < -100000 || v > 100000; }

u8 *put(u8 *out, u64 value, int count) {
    for (int i = count - 1; i >= 0; i--, value >>= 4) out[i] = static_cast<u8>("0123456789ABCDEF"[value & 15]);
    return out + count;
}

struct Load {
    Tables t;
    u16 places[2048];
    bool running = false;

    bool begin(const u8 *p) {
        t.tolerance = p[1] << 8 | p[2];
        t.points = t.polygons = t.entries = t.start[0] = 0;
        std::memset(places, 0xFF, sizeof places);
        running = true;
        return t.tolerance <= 1000;
    }
    bool point(const u8 *p) {
        const i32 x = number(p + 1), y = number(p + 5), z = number(p + 9);
        if (far(x) || far(y) || far(z) || t.points == 512) return false;
        u32 h = static_cast<u32>(x) * 0x9E3779B1u ^ static_cast<u32>(y) * 0x85EBCA77u ^ static_cast<u32>(z) * 0xC2B2AE3Du;
        h = (h ^ h >> 15) & 2047;
        for (; places[h] != none; h = (h + 1) & 2047)
            if (const int g = places[h]; t.x[g] == x && t.y[g] == y && t.z[g] == z) return false;
        places[h] = static_cast<u16>(t.points);
        t.x[t.points] = x;
        t.y[t.points] = y;
        t.z[t.points] = z;
        t.points++;
        return true;
    }
    bool polygon(const u8 *p, int count) {
        if (t.polygons == 256 || t.entries + count > 1024) return false;
        for (int i = 0; i < count; i++) {
            const int e = p[1 + 2 * i] << 8 | p[2 + 2 * i];
            if (e >= t.points) return false;
            t.entry[t.entries++] = static_cast<u16>(e);
        }
        t.start[++t.polygons] = t.entries;
        return true;
    }
};

} // namespace

extern "C" std::int64_t framecheck_avx512_answer(const std::uint8_t *stream, std::size_t stream_len, std::uint8_t *room,
                                                 std::size_t room_len) {
    static Digits digits;
    static Load load;
    if (stream_len > 65535 || !digits.read(stream, stream_len) || room_len < 33 * digits.lines)
        return framecheck_plain_answer(stream, stream_len, room, room_len);
    const u8 *p = digits.bytes;
    u8 *out = room;
    int last = -1;
    load.running = false;
    for (std::size_t l = 0; l < digits.lines; l++) {
        const int n = digits.ends[l] - last - 1;
        last = digits.ends[l];
        Report r;
        bool taken = false;
        if (n < 2 || n % 2 != 0) taken = false;
        else if (p[0] == 2) taken = n == 26 && load.running && load.point(p);
        else if (p[0] == 3) taken = n <= 514 && n % 4 == 2 && load.running && load.polygon(p, (n - 2) / 4);
        else if (p[0] == 1) taken = n == 6 && load.begin(p);
        else if (p[0] == 4) taken = n == 2 && load.running && check(load.t, r);
        if (!taken) return framecheck_plain_answer(stream, stream_len, room, room_len);
        if (p[0] == 4) {
            load.running = false;
            out = put(put(put(put(out, r.check, 4), r.a, 4), r.b, 4), r.faulty, 4);
            out = put(out, static_cast<u64>(r.six_volume), 16);
        } else {
            out = put(out, 0, 2);
        }
        *out++ = '\n';
        p += n / 2;
    }
    return out - room;
}
