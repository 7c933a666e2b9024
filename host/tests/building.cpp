// The class Building: routes, late frames, bounds, folding. Folding is compared with the same history left unfolded, and a
// history far beyond the bounds with stamps and tables kept here.
#include "check.hpp"
#include "framecheck.hpp"

#include "streams.hpp"

#include <vector>

using namespace framecheck;

namespace {

std::string load_text() { return streams::load(streams::tetrahedron()); }

std::string bare(std::string frame) {
    if (!frame.empty() && frame.back() == '\n') frame.pop_back();
    return frame;
}

bool same_outcome(const Correction &p, const Correction &q) {
    if (p.outcome.index() != q.outcome.index()) return false;
    if (p.accepted()) return *p.accepted() == *q.accepted();
    if (p.refused()) return *p.refused() == *q.refused();
    return true;
}

void a_day() {
    Building b;
    HOLD(!b.held() && !b.report());
    const Loaded loaded = b.load(load_text());
    HOLD(loaded.held && !loaded.bound && loaded.refused.empty() && loaded.before.empty());
    HOLD(b.points() == 4 && b.polygons() == 4 && b.report()->accepted() && b.report()->six_volume == 1000000000);

    const Correction newer = b.take(streams::move(5, 3, {0, 0, 2000}), Route::fast);
    HOLD(newer.accepted() && newer.number == 5u && newer.arrival == 0 && newer.route == Route::fast);
    HOLD(b.report()->six_volume == 2000000000 && b.report()->cubic_metres() == 2000000000 / 6e9);
    const Correction older = b.take(streams::move(4, 3, {0, 0, 1000}), Route::slow);
    HOLD(older.late() && older.number == 4u && older.arrival == 1 && older.route == Route::slow);
    HOLD(b.report()->six_volume == 2000000000 && b.last_number() == 5);

    // A late frame stays refused, also when it comes again; a number that a refused frame carried may be used again.
    HOLD(b.take(streams::move(4, 3, {0, 0, 1000}), Route::fast).late());
    HOLD(b.take(streams::move(6, 9, {0, 0, 1000}), Route::fast).refused()->refusal == Refusal::unknown_number);
    HOLD(b.take(streams::move(6, 3, {0, 0, 100001}), Route::slow).refused()->refusal == Refusal::beyond_bound);
    HOLD(b.take(streams::move(6, 3, {1000, 0, 0}), Route::slow).refused()->refusal == Refusal::place_taken);
    HOLD(b.take(bare(streams::turn(6, 3)), Route::slow).accepted()->check == Check::edge_same_direction);
    HOLD(b.corrections().size() == 7 && b.refused().size() == 5 && b.waiting() == 0);
    HOLD(b.refused()[0].late() && b.refused()[0].number == 4u);

    HOLD(b.question(3) == Reply(PolygonAnswer{Finding::none, {}, 6, -2000000000}));
    HOLD(b.question(1) == Reply(PolygonAnswer{Finding::none, {}, 5, 0}));
    HOLD(b.question(4) == Reply(Refused{Refusal::unknown_number}));
    const auto all = b.polygon_answers();
    HOLD(all.size() == 4 && all[0].stamp == 0 && all[1].stamp == 5 && all[2].stamp == 5 && all[3].stamp == 6);
    HOLD(b.lines() == 10 + 7 && Bytes(b.stream()).lines() == b.lines());
}

// Who uses an edge, asked of a building that is corrected, folded and loaded anew.
void across_an_edge() {
    Building b;
    HOLD(b.across(0, 1) == EdgeReply(Refused{Refusal::wrong_state}));
    b.load(load_text());
    const auto as_loaded = [&] {
        return b.across(0, 1) == EdgeReply(EdgeAnswer{2, 0, 1}) && b.across(3, 0) == EdgeReply(EdgeAnswer{2, 1, 2}) &&
               b.across(3, 2) == EdgeReply(EdgeAnswer{2, 2, 3}) && b.across(1, 2) == EdgeReply(EdgeAnswer{2, 0, 3});
    };
    HOLD(as_loaded());
    HOLD(b.across(4, 0) == EdgeReply(Refused{Refusal::unknown_number}) && b.across(0, 0xFFFF) == EdgeReply(Refused{Refusal::unknown_number}));
    HOLD(b.across(2, 2) == EdgeReply(Refused{Refusal::unknown_number}));
    HOLD(b.lines() == 10 && b.report()->six_volume == 1000000000);
    b.take_lines(streams::turn(1, 3) + streams::move(2, 3, {0, 0, 2000}) + streams::turn(3, 0), Route::fast);
    HOLD(as_loaded() && b.report()->check == Check::edge_same_direction);
    HOLD(b.fold() == Folded::done && as_loaded() && b.last_number() == 3);

    // A load with questions in it is taken as it is, its edge questions beside the others.
    HOLD(b.load(load_text() + streams::across(0, 1) + streams::question(0) + streams::across(1, 1)).refused.size() == 1);
    HOLD(b.points() == 4 && b.polygons() == 4 && as_loaded() && b.report()->accepted());
    HOLD(b.take(streams::turn(1, 2), Route::slow).accepted() && as_loaded());

    // Polygon 1 goes there and back, polygon 3 goes over it once; two points share no edge.
    b.load(streams::load({"", 0, {{0, 0, 0}, {1000, 0, 0}, {0, 1000, 0}}, {{}, {0, 1, 0}, {2}, {2, 1, 0}}}));
    HOLD(b.report()->check == Check::few_entries && b.across(1, 0) == EdgeReply(EdgeAnswer{3, 1, 1}));
    HOLD(b.across(1, 2) == EdgeReply(EdgeAnswer{1, 3, std::nullopt}) && b.across(0, 2) == EdgeReply(EdgeAnswer{}));
    b.load("010000\n");
    HOLD(b.across(0, 1) == EdgeReply(Refused{Refusal::wrong_state}));
}

void what_is_no_correction() {
    Building b;
    HOLD(b.take(streams::turn(1, 0), Route::fast).refused()->refusal == Refusal::wrong_state);
    const Loaded loaded = b.load(load_text());
    HOLD(loaded.before.size() == 1 && b.corrections().empty());
    const std::size_t lines = b.lines();
    for (const std::string frame : {"010000", "02000000070000000700000007", "03", "04", "070000", "0C00000001"}) {
        const Correction c = b.take(frame, Route::slow);
        HOLD(std::holds_alternative<NotACorrection>(c.outcome) && c.frame == frame);
    }
    HOLD(b.lines() == lines && b.held() && b.corrections().size() == 6);
    HOLD(b.take("garbage", Route::fast).refused()->refusal == Refusal::broken);
    HOLD(b.take("", Route::fast).refused()->refusal == Refusal::broken);
    HOLD(b.take("0", Route::fast).refused()->refusal == Refusal::broken);
    HOLD(b.take("06000000010003\r", Route::fast).refused()->refusal == Refusal::broken);
    const Correction sly = b.take("06000000010003\n010000\n04", Route::fast);
    HOLD(sly.refused()->refusal == Refusal::broken && !sly.number);
    HOLD(b.take(std::string(515, '0'), Route::fast).refused()->refusal == Refusal::broken);
    HOLD(b.take(std::string(70000, '0'), Route::fast).refused()->refusal == Refusal::broken);
    HOLD(b.held() && b.report()->six_volume == 1000000000 && b.waiting() == 0);
    const std::size_t first = b.take_lines(streams::turn(3, 0) + "\n" + bare(streams::turn(2, 0)), Route::slow);
    HOLD(b.corrections().size() == first + 3);
    HOLD(b.corrections()[first].accepted() && b.corrections()[first + 1].refused() && b.corrections()[first + 2].late());
}

void loads() {
    Building b;
    Loaded bad = b.load("010000\n" + streams::point({0, 0, 0}) + streams::point({0, 0, 0}) + "oops\n03\n04");
    HOLD(bad.held && bad.refused.size() == 2);
    HOLD(bad.refused[0].line == 2 && bad.refused[0].refusal == Refusal::place_taken && bad.refused[1].frame == "oops");
    HOLD(b.points() == 1 && b.polygons() == 1 && b.report()->check == Check::few_entries);
    HOLD(b.take(streams::turn(1, 0), Route::fast).accepted());
    HOLD(b.fold() == Folded::done && b.lines() == 5); // begin, point, polygon, end, the frame that carries the number
    HOLD(b.take(streams::turn(1, 0), Route::fast).late());

    const std::string kept = b.stream();
    HOLD(b.load(std::string(993, '\n')).bound == StreamRefusal::too_many_lines && b.stream() == kept && b.held());
    HOLD(b.load(std::string(65535, '0')).bound == StreamRefusal::too_long && b.stream() == kept && b.held());
    HOLD(!b.load(std::string(992, '\n')).bound && !b.held());
    HOLD(b.take(streams::turn(1, 0), Route::fast).waiting()->bound == StreamRefusal::too_many_lines);
    HOLD(b.fold() == Folded::nothing_held && b.waiting() == 1);
    const Loaded next = b.load(load_text());
    HOLD(next.held && next.before.size() == 1 && next.before[0].waiting());
    HOLD(!b.load("").held && b.lines() == 0);
    HOLD(!b.load("010000\n").held && b.polygon_answers().empty());
    HOLD(b.question(0) == Reply(Refused{Refusal::wrong_state}));

    // A load sent with corrections in it is taken as it is.
    HOLD(b.load(load_text() + streams::turn(7, 2)).held && b.last_number() == 7);
    HOLD(b.take(streams::turn(7, 2), Route::slow).late() && std::get<PolygonAnswer>(b.question(2)).stamp == 7);
}

void bounds_by_hand() {
    Building b;
    b.load(load_text());
    std::uint32_t n = 0;
    std::string first;
    for (; n < 970; n++) first += streams::move(n + 1, 3, {0, 0, 1000 + static_cast<int>(n % 7)});
    b.take_lines(first, Route::fast);
    for (; b.waiting() == 0; n++) b.take(streams::move(n + 1, 3, {0, 0, 1000 + static_cast<int>(n % 7)}), Route::fast);
    HOLD(b.lines() == 992 && n == 992 - 10 + 1);
    HOLD(b.corrections().back().waiting()->bound == StreamRefusal::too_many_lines);
    HOLD(b.last_number() == n - 1);
    b.take(streams::turn(n + 1, 0), Route::slow);
    b.take(streams::turn(2, 0), Route::slow);
    HOLD(b.waiting() == 3 && b.lines() == 992 && b.polygon_answers().size() == 4);
    const Report before = *b.report();
    HOLD(std::get<PolygonAnswer>(b.question(3)).stamp == n - 1);
    HOLD(b.fold() == Folded::done && b.waiting() == 0 && b.times_folded() == 1);
    HOLD(b.corrections()[n - 1].accepted() && b.corrections()[n].accepted() && b.corrections()[n + 1].late());
    HOLD(b.corrections()[n - 2].accepted() && *b.corrections()[n - 2].accepted() == before);
    HOLD(b.lines() == 10 + 1 + 3 && b.last_number() == n + 1);
    const auto all = b.polygon_answers();
    HOLD(all[0].stamp == n + 1 && all[1].stamp == n && all[2].stamp == n && all[3].stamp == n);

    // Bytes run out first where frames are long.
    b.load(load_text());
    while (b.waiting() == 0) b.take(std::string(514, 'G'), Route::slow);
    HOLD(b.corrections().back().waiting()->bound == StreamRefusal::too_long);
    HOLD(b.stream().size() + 32 * 11 <= 65535 && b.stream().size() + 515 + 32 * 11 > 65535);
    HOLD(std::holds_alternative<PolygonAnswer>(b.question(0)) && std::holds_alternative<EdgeAnswer>(b.across(0, 1)));
    HOLD(b.fold() == Folded::done && b.lines() == 11 && b.waiting() == 0);
    HOLD(b.refused().size() == b.corrections().size());
    HOLD(b.take(streams::turn(1, 0), Route::fast).accepted()); // nothing was accepted before: number 1 is still free
}

void folding_keeps_stamps() {
    Building b;
    b.load(load_text());
    b.take_lines(streams::turn(3, 1) + streams::turn(4, 1) + streams::move(10, 3, {0, 0, 1500}), Route::fast);
    b.take_lines(streams::turn(11, 0), Route::fast);
    const auto before = b.polygon_answers();
    HOLD(before[0].stamp == 11 && before[1].stamp == 10 && before[2].stamp == 10 && before[3].stamp == 10);
    for (int times = 1; times <= 3; times++) {
        HOLD(b.fold() == Folded::done && b.polygon_answers() == before && b.times_folded() == static_cast<std::size_t>(times));
        HOLD(b.last_number() == 11 && b.lines() == 11);
        HOLD(b.question(0) == Reply(before[0]) && b.question(3) == Reply(before[3]));
    }
    HOLD(b.take(streams::turn(11, 2), Route::slow).late());
    HOLD(b.take(streams::turn(12, 2), Route::slow).accepted());
    const auto after = b.polygon_answers();
    HOLD(after[0] == before[0] && after[1] == before[1] && after[2].stamp == 12 && after[3] == before[3]);

    // The highest number, and buildings without points or without anything.
    b.take(streams::turn(0xFFFFFFFFu, 0), Route::fast);
    HOLD(b.fold() == Folded::done && b.take(streams::turn(0xFFFFFFFFu, 0), Route::fast).late());
    b.load("010000\n03\n03\n04\n");
    b.take(streams::turn(8, 1), Route::fast);
    HOLD(b.fold() == Folded::done && b.lines() == 5);
    HOLD(b.polygon_answers()[0].stamp == 0 && b.polygon_answers()[1].stamp == 8);
    HOLD(b.take(streams::turn(8, 0), Route::slow).late() && b.take(streams::turn(9, 0), Route::slow).accepted());
    b.load("010000\n04\n");
    HOLD(b.fold() == Folded::done && b.lines() == 2 && b.report()->check == Check::few_polygons);

    // An open ring: its part changes when it is turned, and the fold sends it as it stands.
    b.load(streams::load({"", 0, {{0, 0, 0}, {1, 0, 5}, {1, 1, 7}, {5, 9, 1}}, {{1, 2, 3, 0}}}));
    HOLD(std::get<PolygonAnswer>(b.question(0)).part == -42);
    b.take(streams::turn(1, 0), Route::fast);
    HOLD(std::get<PolygonAnswer>(b.question(0)) == PolygonAnswer{Finding::open_ring, {}, 1, 0});
    HOLD(b.fold() == Folded::done && std::get<PolygonAnswer>(b.question(0)) == PolygonAnswer{Finding::open_ring, {}, 1, 0});
}

// The largest tables: a fresh load of them leaves room, and the questions do not fit one call.
void largest() {
    streams::Model m{"largest", 1000, {}, {}};
    for (int i = 0; i < 512; i++) m.points.push_back({i, i * i % 1000, -i});
    for (int p = 0; p < 256; p++) m.rings.push_back({p, p + 1, p + 2, p});
    Building b(Folding::when_full);
    HOLD(b.load(streams::load(m)).held && b.lines() == 770);
    HOLD(b.polygon_answers().size() == 256);
    std::string frames;
    for (std::uint32_t n = 1; n <= 700; n++) frames += streams::turn(n, static_cast<int>(n % 256));
    b.take_lines(frames, Route::fast);
    HOLD(b.waiting() == 0 && b.times_folded() == 3 && b.refused().empty() && b.last_number() == 700);
    const auto all = b.polygon_answers();
    bool stamps = true;
    for (std::uint32_t p = 0; p < 256; p++) stamps = stamps && all[p].stamp == (p + 512 <= 700 ? p + 512 : p + 256);
    HOLD(stamps);
}

// The same frames to a building that folds whenever chance says, to one that never does, and to the service in one stream.
void folding_is_not_seen(int rounds) {
    for (int round = 0; round < rounds; round++) {
        streams::Random r(static_cast<std::uint64_t>(round) + 77);
        streams::Model m = streams::any_model(r);
        streams::disturb(m, r);
        Building plain, folding;
        const std::string text = streams::load(m);
        HOLD(plain.load(text).held == folding.load(text).held);
        if (!plain.held()) continue;
        std::string whole = text;
        std::uint32_t number = 0;
        const int count = r.below(60);
        for (int k = 0; k < count && plain.lines() < 990; k++) {
            const std::string frame = bare(streams::any_correction(m, number, r));
            if (frame.substr(0, 2) == "07" || frame.substr(0, 2) == "0C") continue;
            const Correction c = plain.take(frame, r.one_in(2) ? Route::fast : Route::slow);
            whole += frame + "\n";
            if (r.one_in(10)) HOLD(folding.fold() == Folded::done);
            HOLD(same_outcome(c, folding.take(frame, c.route)));
        }
        HOLD(plain.report() == folding.report() && plain.last_number() == folding.last_number());
        HOLD(plain.polygon_answers() == folding.polygon_answers());
        for (int k = 0; k < 5; k++) {
            const auto [a, b] = streams::any_edge(m, r);
            HOLD(plain.across(a, b) == folding.across(a, b));
        }
        HOLD(plain.stream() == whole);
        const Answers direct = answer_all(whole);
        std::size_t accepted = 0;
        for (std::size_t i = 0; i < plain.corrections().size(); i++) {
            const Answer &a = direct.lines[direct.lines.size() - plain.corrections().size() + i];
            const Correction &c = plain.corrections()[i];
            HOLD(c.accepted() ? a == Answer(*c.accepted()) : a == Answer(*c.refused()));
            accepted += c.accepted() != nullptr;
        }
        HOLD(accepted + plain.refused().size() == plain.corrections().size());
    }
}

// Several thousand corrections in batches from two routes, with the tables and stamps that they leave kept here.
void a_long_history(int rounds) {
    for (int round = 0; round < rounds; round++) {
        streams::Random r(static_cast<std::uint64_t>(round) + 4242);
        streams::Model m = round % 2 == 0 ? streams::gabled_house() : streams::ball("ball", 3, 6);
        Building b(Folding::when_full);
        b.load(streams::load(m));
        std::uint32_t last = 0;
        std::vector<std::uint32_t> stamps(m.rings.size(), 0);
        for (int batch = 0; batch < 12; batch++) {
            std::string frames;
            std::vector<bool> accepted;
            for (int k = 0; k < 200; k++) {
                const std::uint32_t n = last + static_cast<std::uint32_t>(r.below(4));
                const bool late = n <= last;
                accepted.push_back(!late);
                if (r.one_in(3)) {
                    const auto which = static_cast<std::size_t>(r.below(static_cast<int>(m.rings.size())));
                    frames += streams::turn(n, static_cast<int>(which));
                    if (late) continue;
                    std::reverse(m.rings[which].begin(), m.rings[which].end());
                    stamps[which] = n;
                } else {
                    const auto which = static_cast<std::size_t>(r.below(static_cast<int>(m.points.size())));
                    streams::Place to = m.points[which];
                    to[static_cast<std::size_t>(r.below(3))] += r.from_to(-9, 9);
                    frames += streams::move(n, static_cast<int>(which), to);
                    if (late) continue;
                    m.points[which] = to;
                    for (std::size_t p = 0; p < m.rings.size(); p++)
                        if (std::find(m.rings[p].begin(), m.rings[p].end(), static_cast<int>(which)) != m.rings[p].end()) stamps[p] = n;
                }
                last = n;
            }
            const std::size_t first = b.take_lines(frames, batch % 2 == 0 ? Route::fast : Route::slow);
            bool as_expected = true;
            for (std::size_t k = 0; k < accepted.size(); k++) {
                const Correction &c = b.corrections()[first + k];
                as_expected = as_expected && (accepted[k] ? c.accepted() != nullptr : c.late());
            }
            HOLD(as_expected && b.last_number() == last && b.waiting() == 0);
        }
        HOLD(b.times_folded() >= 2 && b.corrections().size() == 2400);
        Building fresh; // demand 3: the report and every polygon's answer are those of a fresh load of the tables
        fresh.load(streams::load(m));
        HOLD(b.report() == fresh.report());
        const auto answers = b.polygon_answers(), loaded = fresh.polygon_answers();
        bool equal = answers.size() == loaded.size();
        for (std::size_t p = 0; equal && p < answers.size(); p++)
            equal = answers[p] == PolygonAnswer{loaded[p].finding, loaded[p].position, stamps[p], loaded[p].part};
        HOLD(equal);
    }
}

} // namespace

int main(int argc, char **argv) {
    const int rounds = argc > 1 ? std::atoi(argv[1]) : 150;
    a_day();
    across_an_edge();
    what_is_no_correction();
    loads();
    bounds_by_hand();
    folding_keeps_stamps();
    folding_is_not_seen(rounds);
    if (rounds >= 10) { // too much for valgrind
        largest();
        a_long_history(rounds / 100 + 1);
    }
    return test::finish();
}
