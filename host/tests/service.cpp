// The service through its raw entry and the typed answers: the stream in full, the examples at the edges, the bounds, the room.
#include "check.hpp"
#include "framecheck.hpp"

#include "streams.hpp"

#include <array>
#include <set>
#include <vector>

using namespace framecheck;

namespace {

std::string raw(const std::string &stream) {
    test::Fenced in(stream.size()), out(33 * Bytes(stream).lines());
    std::memcpy(in.data(), stream.data(), stream.size());
    std::memset(out.data(), 0xA5, out.size());
    const std::int64_t got = answer({in.data(), in.size()}, {out.data(), out.size()});
    if (got < 0) return std::to_string(got);
    for (std::size_t i = static_cast<std::size_t>(got); i < out.size(); i++)
        if (out.data()[i] != 0xA5) return "room after the answer was touched";
    return std::string(reinterpret_cast<char *>(out.data()), static_cast<std::size_t>(got));
}

std::string repeat(const std::string &text, int times) {
    std::string all;
    for (int i = 0; i < times; i++) all += text;
    return all;
}

std::string last_line(const std::string &stream) {
    const std::string text = raw(stream);
    const std::size_t end = text.size() - 1, before = text.rfind('\n', end - 1);
    return text.substr(before == std::string::npos ? 0 : before + 1, end - (before == std::string::npos ? 0 : before + 1));
}

const std::string worked = "010000\n02000000000000000000000000\n02000003E80000000000000000\n0200000000000003E800000000\n"
                           "020000000000000000000003E8\n030000000200010000\n030000000100030000\n030000000300020000\n"
                           "030001000200030001\n04\n050000000500030000000000000000000007D0\n"
                           "050000000400030000000000000000000003E8\n070000\n070003\n06000000060003\n";

const std::string worked_answer = repeat("00\n", 9) + "0000000000000000000000003B9ACA00\n00000000000000000000000077359400\n07\n"
                                                       "00000000000000000000000000000000\n00000000000000050000000077359400\n"
                                                       "000A000100020000FFFFFFFF88CA6C00\n";

void stream_in_full() {
    HOLD(raw(worked) == worked_answer);
    HOLD(raw(worked.substr(0, worked.size() - 1)) == worked_answer);
    const Answers all = answer_all(worked);
    HOLD(!all.refused && all.lines.size() == 15);
    HOLD(std::holds_alternative<Plain>(all.lines[8]));
    HOLD(all.lines[9] == Answer(Report{Check::accepted, 0, 0, 0, 1000000000}));
    HOLD(all.lines[10] == Answer(Report{Check::accepted, 0, 0, 0, 2000000000}));
    HOLD(all.lines[11] == Answer(Refused{Refusal::late}));
    HOLD(all.lines[13] == Answer(PolygonAnswer{Finding::none, {}, 5, 2000000000}));
    HOLD(all.lines[14] == Answer(Report{Check::edge_same_direction, 1, 2, 0, -2000000000}));
}

void empty_and_null() {
    HOLD(checker_answer(nullptr, 0, nullptr, 0) == 0);
    HOLD(answer({}, {}) == 0);
    HOLD(answer(nullptr, nullptr) == 0);
    HOLD(answer("", nullptr) == 0);
    HOLD(answer(std::string_view(), {}) == 0);
    HOLD(answer(std::vector<std::uint8_t>(), {}) == 0);
    std::array<std::uint8_t, 40> room{};
    HOLD(answer(nullptr, room) == 0);
    HOLD(answer("04", room) == 3 && std::memcmp(room.data(), "02\n", 4) == 0);
    HOLD(answer(std::string("\n"), room) == 3 && room[1] == '1');
    std::array<char, 4> short_room{'x', 'x', 'x', 'x'};
    HOLD(answer("04", short_room) == -3 && short_room[0] == 'x');
    HOLD(answer("04", nullptr) == -3);
    HOLD(answer_all(nullptr).lines.empty() && !answer_all("").refused);
    HOLD(answer_all("04").lines.size() == 1);
}

void whole_stream_refusals() {
    const std::string longest = std::string(65535, '0'), longer = longest + "0";
    std::vector<std::uint8_t> room(33 * 1024, 7);
    HOLD(answer(longest, room) == 3);
    room.assign(room.size(), 7);
    HOLD(answer(longer, room) == -1 && room[0] == 7);
    HOLD(answer(longer, nullptr) == -1);
    HOLD(answer(std::string(65536, '\n'), room) == -1);
    HOLD(answer(std::string(1025, '\n'), room) == -2 && room[0] == 7);
    HOLD(answer(std::string(1025, '\n'), nullptr) == -2);
    HOLD(answer(std::string(1024, '\n') + "0", room) == -2);
    HOLD(answer(std::string(1024, '\n'), Room(room.data(), 33 * 1024 - 1)) == -3 && room[0] == 7);
    HOLD(answer(std::string(1024, '\n'), Room(room.data(), 33 * 1024)) == 3 * 1024);
    HOLD(answer_all(longer).refused == StreamRefusal::too_long);
    HOLD(answer_all(std::string(1025, '\n')).refused == StreamRefusal::too_many_lines);
    HOLD(answer_all(std::string(1024, '\n')).lines.size() == 1024);
    for (std::size_t lines = 0; lines < 5; lines++)
        for (std::size_t size = 0; size < 33 * lines; size += 16)
            HOLD(answer(std::string(lines, '\n'), Room(room.data(), size)) == -3);
}

// A building of one ring over points of its own.
std::string one_ring(const std::vector<streams::Place> &points, const streams::Ring &ring, int tolerance = 0) {
    return streams::load({"", tolerance, points, {ring}});
}

void examples_at_the_edges() {
    const auto bent = [](int h) { return one_ring({{0, 0, 0}, {1000, 0, 0}, {1000, 1000, 0}, {0, 1000, h}}, {0, 1, 2, 3, 0}, 10); };
    HOLD(last_line(bent(20)).substr(0, 16) == "0007000100000000");
    HOLD(last_line(bent(21)).substr(0, 16) == "0006000000010001");
    const auto steep = [](int h) { return one_ring({{0, 0, 0}, {1000, 0, 1000}, {1000, 1000, 1000}, {0, 1000, h}}, {0, 1, 2, 3, 0}, 10); };
    HOLD(last_line(steep(21)).substr(0, 16) == "0007000100000000"); // 10.5 mm off along z, 7.5 by true distance
    HOLD(last_line(steep(29)).substr(0, 16) == "0006000000010001");
    const auto bow = [](int y) { return one_ring({{0, 0, 0}, {1000, 1000, 0}, {1000, 0, 0}, {0, y, 0}}, {0, 1, 2, 3, 0}); };
    HOLD(last_line(bow(1000)).substr(0, 16) == "0004000000000001");
    HOLD(last_line(bow(2000)).substr(0, 16) == "0005000000000001");
    HOLD(last_line(one_ring({}, {})).substr(0, 16) == "0001000000000001");
    HOLD(last_line(one_ring({{0, 0, 0}, {1, 0, 0}}, {0, 1, 0})).substr(0, 16) == "0001000000000001");
    HOLD(last_line(one_ring({{0, 0, 0}, {1, 0, 0}}, {0, 1, 0, 1})).substr(0, 16) == "0002000000000001");
    auto tetrahedron = streams::tetrahedron();
    HOLD(last_line(streams::load(tetrahedron)) == "0000000000000000000000003B9ACA00");
    for (auto &ring : tetrahedron.rings) std::reverse(ring.begin(), ring.end());
    HOLD(last_line(streams::load(tetrahedron)) == "000D000000000000FFFFFFFFC4653600");
    tetrahedron.rings.pop_back();
    HOLD(last_line(streams::load(tetrahedron)).substr(0, 16) == "0007000300000000");
    HOLD(last_line("010000\n04\n") == "00070000000000000000000000000000");

    HOLD(last_line("010000\n" + streams::point({100000, -100000, 100000})) == "00");
    HOLD(last_line("010000\n" + streams::point({100001, 0, 0})) == "03");
    HOLD(last_line("010000\n" + streams::point({0, 0, -100001})) == "03");
    HOLD(last_line("010000\n02800000007FFFFFFF00000000\n") == "03");
    HOLD(last_line("0103E8\n") == "00");
    HOLD(last_line("0103E9\n") == "03");
    HOLD(last_line("010000\n" + streams::point({0, 0, 0}) + "03" + repeat("0000", 128) + "\n") == "00");
    HOLD(last_line("010000\n" + streams::point({0, 0, 0}) + "03" + repeat("0000", 129) + "\n") == "01");
    const std::string held = streams::load(streams::tetrahedron());
    HOLD(last_line(held + streams::turn(0xFFFFFFFFu, 0)).size() == 32);
    HOLD(last_line(held + streams::turn(0xFFFFFFFFu, 0) + streams::turn(0xFFFFFFFFu, 0)) == "07");
    HOLD(last_line(held + streams::turn(0xFFFFFFFFu, 0) + streams::turn(1, 0)) == "07");
    HOLD(last_line(held + streams::turn(0, 0)) == "07");
}

void order_of_refusals() {
    const std::string held = streams::load(streams::tetrahedron()) + streams::turn(9, 0);
    HOLD(last_line(held + streams::move(9, 77, {100001, 0, 0})) == "07");
    HOLD(last_line(held + streams::move(10, 77, {100001, 0, 0})) == "05");
    HOLD(last_line(held + streams::move(10, 0, {100001, 0, 0})) == "03");
    HOLD(last_line(held + streams::move(10, 0, {1000, 0, 0})) == "06");
    HOLD(last_line(held + streams::move(10, 0, {0, 0, 0})).size() == 32);
    HOLD(last_line(held + streams::point({7, 7, 7})) == "02");
    HOLD(last_line("010000\n" + streams::question(0)) == "02");
    HOLD(last_line("05\n") == "01");
    HOLD(last_line("0600000001000\n") == "01");
    HOLD(last_line("01000a\n") == "01");
    HOLD(last_line("010000\r\n") == "01");
    HOLD(last_line("080000\n") == "01");
    std::string full = "010000\n";
    for (int i = 0; i < 512; i++) full += streams::point({i, 0, 0});
    HOLD(last_line(full + streams::point({0, 100001, 0})) == "03");
    HOLD(last_line(full + streams::point({0, 0, 0})) == "04");
    for (int i = 0; i < 256; i++) full += "03\n";
    HOLD(last_line(full + "030200\n") == "05");
    HOLD(last_line(full + "03\n") == "04");
}

void edge_questions_refused() {
    const std::string held = streams::load(streams::tetrahedron());
    for (const char *line : {"0C", "0C0000", "0C0000000", "0C000000010", "0C0000000100", "0c00000001", "0C0000000G"})
        for (const std::string &before : {std::string(), std::string("010000\n"), held}) HOLD(last_line(before + line + "\n") == "01");
    HOLD(last_line(streams::across(0, 1)) == "02");
    HOLD(last_line("010000\n" + streams::across(0, 0)) == "02");
    HOLD(last_line(held + "010000\n" + streams::across(0, 1)) == "02"); // a begin drops the building
    HOLD(last_line(held + "0103E9\n" + streams::across(0, 1)) == "00000200000001");
    for (const auto &[a, b] : {std::pair{4, 0}, std::pair{0, 4}, std::pair{4, 5}, std::pair{0, 0xFFFF}, std::pair{2, 2}, std::pair{9, 9}})
        HOLD(last_line(held + streams::across(a, b)) == "05");
    HOLD(last_line("010000\n04\n" + streams::across(0, 1)) == "05");
    std::string full = "010000\n";
    for (int i = 0; i < 512; i++) full += streams::point({i, 0, 0});
    full += streams::polygon({511, 0, 510, 511}) + "04\n";
    HOLD(last_line(full + streams::across(0, 511)) == "0000010000FFFF");
    HOLD(last_line(full + streams::across(511, 510)) == "0000010000FFFF");
    HOLD(last_line(full + streams::across(511, 512)) == "05");
}

// The edges of the tetrahedron in either order, as they were loaded and after corrections: a move and a turn alter no users.
void edges_of_the_tetrahedron() {
    const std::string loaded = streams::load(streams::tetrahedron());
    const std::string corrected = loaded + streams::move(1, 3, {0, 0, 2000}) + streams::turn(2, 3) + streams::turn(3, 0) + streams::turn(4, 0);
    const std::array<std::array<int, 4>, 6> edges{{{0, 1, 0, 1}, {0, 2, 0, 2}, {0, 3, 1, 2}, {1, 2, 0, 3}, {1, 3, 1, 3}, {2, 3, 2, 3}}};
    for (const auto &[a, b, first, second] : edges) {
        const std::string expected = "000002000" + std::to_string(first) + "000" + std::to_string(second);
        for (const auto &stream : {loaded, corrected}) {
            HOLD(last_line(stream + streams::across(a, b)) == expected);
            HOLD(last_line(stream + streams::across(b, a)) == expected);
        }
    }
    const Answers all = answer_all(loaded + streams::across(3, 0) + streams::question(0) + streams::turn(1, 0));
    HOLD(all.lines[10] == Answer(EdgeAnswer{2, 1, 2})); // and it changes nothing held
    HOLD(all.lines[11] == Answer(PolygonAnswer{Finding::none, {}, 0, 0}));
    HOLD(std::holds_alternative<Report>(all.lines[12]));
}

// Rings that are open, short or faulty have edges too; users are counted with repetition, and so are the two lowest.
void edges_of_any_rings() {
    const std::vector<streams::Place> places{{0, 0, 0}, {1000, 0, 0}, {0, 1000, 0}, {0, 0, 1000}};
    const auto users = [&](const std::vector<streams::Ring> &rings, int a, int b) {
        return last_line(streams::load({"", 0, places, rings}) + streams::across(a, b));
    };
    HOLD(users({}, 0, 1) == "000000FFFFFFFF" && users({{}, {0}}, 0, 1) == "000000FFFFFFFF");
    HOLD(users({{0, 1, 0}}, 0, 1) == "00000200000000"); // there and back
    HOLD(users({{2, 3}}, 3, 2) == "0000010000FFFF" && users({{2, 3}}, 2, 1) == "000000FFFFFFFF");
    HOLD(users({{}, {0, 1, 2, 3}}, 2, 3) == "0000010001FFFF"); // open: no edge from its last entry to its first
    HOLD(users({{}, {0, 1, 2, 3}}, 3, 0) == "000000FFFFFFFF");
    const streams::Ring twice{0, 0, 1, 1, 2, 0}; // steps from a number to itself are no edges
    HOLD(users({twice}, 0, 1) == "0000010000FFFF" && users({twice}, 1, 2) == "0000010000FFFF" && users({twice}, 2, 0) == "0000010000FFFF");
    const std::vector<streams::Ring> many{{}, {2, 3, 2}, {}, {0, 1, 0}, {3}, {2, 1, 0}, {0, 1, 2}};
    HOLD(users(many, 0, 1) == "00000400030003");
    HOLD(users({many.begin(), many.begin() + 6}, 0, 1) == "00000300030003");
    HOLD(users(many, 1, 2) == "00000200050006" && users(many, 3, 2) == "00000200010001" && users(many, 3, 0) == "000000FFFFFFFF");
    streams::Ring longest; // 128 entries there and back: 127 users of one edge in each of eight rings, the most there are
    for (int i = 0; i < 128; i++) longest.push_back(i % 2);
    HOLD(users(std::vector<streams::Ring>(8, longest), 1, 0) == "0003F800000000");
}

Position entry(std::uint16_t index) { return {Position::Of::entry, index}; }
Position edge(std::uint16_t index) { return {Position::Of::edge, index}; }

// Where in the ring: in the report's b, in the question's answer, and in the sentences.
void positions() {
    const std::vector<streams::Place> late{{0, 0, 0}, {1000, 0, 0}, {1000, 500, 0}, {0, 1000, 0}, {1000, 1000, 0}, {0, 500, 0}};
    const std::string crossed = one_ring(late, {0, 1, 2, 3, 4, 5, 0}); // edges 2 and 4; turned, 1 and 3
    HOLD(last_line(crossed).substr(0, 16) == "0005000000020001");
    HOLD(last_line(crossed + streams::question(0)) == "00050002000000000000000000000000");
    HOLD(last_line(crossed + streams::turn(7, 0)).substr(0, 16) == "0005000000010001");
    HOLD(last_line(crossed + streams::turn(7, 0) + streams::question(0)) == "00050001000000070000000000000000");
    const Answers all = answer_all(crossed + streams::turn(7, 0) + streams::question(0));
    const Answer &report = all.lines[all.lines.size() - 2];
    HOLD(report == Answer(Report{Check::edges_meet, 0, 1, 1, 0}) && std::get<Report>(report).position() == edge(1));
    HOLD(all.lines.back() == Answer(PolygonAnswer{Finding::edges_meet, edge(1), 7, 0}));
    const auto again = one_ring({{0, 0, 0}, {1000, 0, 0}, {1000, 1000, 0}}, {0, 1, 2, 2, 1, 0});
    HOLD(last_line(again).substr(0, 16) == "0003000000030001");
    HOLD(last_line(again + streams::question(0)).substr(0, 8) == "00030003");
    HOLD(last_line(one_ring({{0, 0, 0}, {1000, 0, 0}}, {0, 0, 1, 1}) + streams::question(0)).substr(0, 8) == "00020000");

    HOLD(sentence(Finding::edges_meet, 3, edge(17)) == "Edge 17 of polygon 3 meets another edge where it must not.");
    HOLD(sentence(Finding::number_twice, 3, entry(5)) == "The number of entry 5 of polygon 3 stood earlier in its ring.");
    HOLD(sentence(Finding::not_planar, 2, entry(4)) == "Entry 4 of polygon 2 lies further from the polygon's plane than the tolerance.");
    HOLD(sentence(Finding::open_ring, 2, {}) == sentence(Finding::open_ring));
    HOLD(sentence(Report{Check::not_planar, 2, 4, 1, 0}) == sentence(Finding::not_planar, 2, entry(4)));
    HOLD(sentence(Report{Check::edge_once, 2, 4, 0, 0}) == sentence(Check::edge_once));
    for (int c = 0; c <= 0x0D; c++) {
        const bool has = framecheck_position_sentence(c) != nullptr;
        HOLD((positioned(static_cast<Check>(c)) != Position::Of::nothing) == has);
        HOLD(Report{static_cast<Check>(c), 2, 4, 1, 0}.position().index == (has ? 4 : 0));
    }
}

bool unreadable(std::string_view frame, std::string_view line) {
    try {
        read_answer(frame, line);
    } catch (const Unreadable &) {
        return true;
    }
    return false;
}

void edge_answers_are_typed() {
    HOLD(read_answer("0C00000001", "000000FFFFFFFF") == Answer(EdgeAnswer{}));
    HOLD(read_answer("0C00000001", "000001000AFFFF") == Answer(EdgeAnswer{1, 10, std::nullopt}));
    HOLD(read_answer("0C00000001", "000002000000FF") == Answer(EdgeAnswer{2, 0, 255}));
    HOLD(read_answer("0C00000001", "0003F800FF00FF") == Answer(EdgeAnswer{1016, 255, 255}));
    // A user named though there is none, a second beside one, none though there are, out of order, and numbers beyond the bounds.
    for (const char *bad : {"0000000000FFFF", "000000FFFF0000", "00000000000000", "00000100000001", "000001FFFFFFFF", "000001FFFF0000",
                            "0000020000FFFF", "000002FFFFFFFF", "000002FFFF0000", "00000200010000", "00000300020001", "0000010100FFFF",
                            "00000200000100", "00FFFF00000000"})
        HOLD(unreadable("0C00000001", bad));
    for (const char *bad : {"", "0", "00", "08", "0C000000000000", "00000200000001 ", "0000020000000a", "0000020000000", "000002000000010"})
        HOLD(unreadable("0C00000001", bad));
    HOLD(unreadable("0C00000001", std::string(32, '0')));
    for (const char *kind : {"", "01", "03", "04", "06", "07", "0c", "no frame"}) HOLD(unreadable(kind, "00000200000001"));

    HOLD(EdgeAnswer{2, 3, 5}.across_from(3) == 5 && EdgeAnswer{2, 3, 5}.across_from(5) == 3 && !EdgeAnswer{2, 3, 5}.across_from(4));
    HOLD(EdgeAnswer{2, 3, 3}.across_from(3) == 3);
    HOLD(!EdgeAnswer{1, 3, std::nullopt}.across_from(3) && !EdgeAnswer{3, 3, 5}.across_from(3) && !EdgeAnswer{}.across_from(0xFFFF));
    HOLD(!(EdgeAnswer{2, 3, 5} == EdgeAnswer{3, 3, 5}) && !(EdgeAnswer{2, 3, 5} == EdgeAnswer{2, 3, 4}));
}

void answers_are_typed() {
    for (const char *kind : {"01", "02", "03"}) HOLD(std::holds_alternative<Plain>(read_answer(kind, "00")));
    for (const char *kind : {"", "04", "05", "06", "07", "0C", "no frame"}) HOLD(unreadable(kind, "00"));
    for (int n = 1; n <= 7; n++)
        for (const char *kind : {"", "01", "04", "07", "0C", "no frame"})
            HOLD(read_answer(kind, "0" + std::to_string(n)) == Answer(Refused{static_cast<Refusal>(n)}));
    for (const char *kind : {"04", "05", "06"}) {
        HOLD(read_answer(kind, "000D000100020003FFFFFFFFFFFFFFFF") == Answer(Report{Check::no_volume, 1, 2, 3, -1}));
        HOLD(read_answer(kind, "00000000000000008000000000000000") == Answer(Report{Check::accepted, 0, 0, 0, INT64_MIN}));
        HOLD(unreadable(kind, "000E0000000000000000000000000000"));
    }
    // The same digits say another thing of a question.
    const std::string_view digits = "0006007EFFFFFFFF7FFFFFFFFFFFFFFF";
    HOLD(read_answer("070000", digits) == Answer(PolygonAnswer{Finding::not_planar, entry(126), 0xFFFFFFFFu, INT64_MAX}));
    HOLD(read_answer("06", digits) == Answer(Report{Check::not_planar, 126, 0xFFFF, 0xFFFF, INT64_MAX}));
    HOLD(unreadable("07", "00020001000000000000000000000000")); // an open ring has no position
    HOLD(unreadable("07", "00070000000000000000000000000000") && unreadable("03", "00000000000000000000000000000000"));
    // A question's answer without its position, or of any other length.
    for (std::size_t length = 0; length < 40; length++)
        for (const char *kind : {"04", "07"}) HOLD(unreadable(kind, std::string(length, '0')) == (length != 32));
    for (const char *bad : {"", "0", "08", "0a", "000", "10000000000000000000000000000000", "0000000000000000000000003B9ACA0x"})
        for (const char *kind : {"01", "04", "07"}) HOLD(unreadable(kind, bad));
    std::set<std::string_view> sentences;
    for (int c = 0; c <= 0x0D; c++) sentences.insert(sentence(static_cast<Check>(c)));
    for (int r = 1; r <= 7; r++) sentences.insert(sentence(static_cast<Refusal>(r)));
    for (int r = -3; r <= -1; r++) sentences.insert(sentence(static_cast<StreamRefusal>(r)));
    HOLD(sentences.size() == 14 + 7 + 3);
    HOLD(sentence(Finding::open_ring) == sentence(Check::open_ring));
    HOLD(number_of(Check::edge_same_direction) == 10 && number_of(StreamRefusal::room_too_short) == -3);
    HOLD(Report{Check::accepted, 0, 0, 0, 3120000000000}.cubic_metres() == 520.0);
    HOLD(cubic_metres(-6000000000) == -1.0 && cubic_metres(0) == 0.0);
}

// Streams and rooms between forbidden pages, and answers the same from two places in memory and twice in a row.
void fenced_streams(int count) {
    for (int seed = 0; seed < count; seed++) {
        const std::string stream = streams::any_stream(static_cast<std::uint64_t>(seed) + 5000000);
        const std::string once = raw(stream);
        const Answers typed = answer_all(stream);
        HOLD(typed.refused ? once == std::to_string(number_of(*typed.refused)) : typed.lines.size() == Bytes(stream).lines());
        HOLD(once != "room after the answer was touched" && once == raw(stream));
    }
}

} // namespace

int main(int argc, char **argv) {
    stream_in_full();
    empty_and_null();
    whole_stream_refusals();
    examples_at_the_edges();
    order_of_refusals();
    edge_questions_refused();
    edges_of_the_tetrahedron();
    edges_of_any_rings();
    positions();
    answers_are_typed();
    edge_answers_are_typed();
    fenced_streams(argc > 1 ? std::atoi(argv[1]) : 500);
    return test::finish();
}
