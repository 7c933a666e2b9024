// The checker for C++17: the raw call, typed answers, and a building that keeps its frames. Header only; link the archive.
#ifndef FRAMECHECK_HPP
#define FRAMECHECK_HPP

#include "framecheck.h"

#include <algorithm>
#include <cstddef>
#include <cstdint>
#include <deque>
#include <iterator>
#include <optional>
#include <stdexcept>
#include <string>
#include <string_view>
#include <type_traits>
#include <utility>
#include <variant>
#include <vector>

namespace framecheck {

// ---- the raw call -------------------------------------------------------------------------------------------------

namespace detail {

// Pointer and length of one-byte elements: strings, vectors, arrays, spans.
template <class T, class = void> struct is_bytes : std::false_type {};
template <class T>
struct is_bytes<T, std::void_t<decltype(std::declval<T &>().data()), decltype(std::declval<T &>().size())>>
    : std::bool_constant<sizeof(*std::declval<T &>().data()) == 1> {};

} // namespace detail

// Bytes lent to be read. Null with length 0 is an empty stream.
class Bytes {
  public:
    constexpr Bytes() noexcept = default;
    constexpr Bytes(std::nullptr_t, std::size_t = 0) noexcept {}
    constexpr Bytes(const std::uint8_t *data, std::size_t size) noexcept : data_(data), size_(size) {}
    Bytes(const char *data, std::size_t size) noexcept : data_(reinterpret_cast<const std::uint8_t *>(data)), size_(size) {}
    Bytes(const char *text) noexcept : Bytes(std::string_view(text)) {}
    template <class T, class = std::enable_if_t<detail::is_bytes<const T>::value>>
    Bytes(const T &bytes) noexcept
        : data_(reinterpret_cast<const std::uint8_t *>(bytes.data())), size_(static_cast<std::size_t>(bytes.size())) {}

    const std::uint8_t *data() const noexcept { return data_; }
    std::size_t size() const noexcept { return size_; }
    std::size_t lines() const noexcept { return framecheck_lines(data_, size_); }

  private:
    const std::uint8_t *data_ = nullptr;
    std::size_t size_ = 0;
};

// Answer room lent to be written. Null with length 0 is no room.
class Room {
  public:
    constexpr Room() noexcept = default;
    constexpr Room(std::nullptr_t, std::size_t = 0) noexcept {}
    constexpr Room(std::uint8_t *data, std::size_t size) noexcept : data_(data), size_(size) {}
    Room(char *data, std::size_t size) noexcept : data_(reinterpret_cast<std::uint8_t *>(data)), size_(size) {}
    template <class T, class = std::enable_if_t<detail::is_bytes<T>::value && !std::is_const_v<T>>>
    Room(T &bytes) noexcept
        : data_(reinterpret_cast<std::uint8_t *>(bytes.data())), size_(static_cast<std::size_t>(bytes.size())) {}

    std::uint8_t *data() const noexcept { return data_; }
    std::size_t size() const noexcept { return size_; }

  private:
    std::uint8_t *data_ = nullptr;
    std::size_t size_ = 0;
};

// The service entry as it is: the number of answer bytes, or a whole-stream refusal.
inline std::int64_t answer(Bytes stream, Room room) noexcept {
    return checker_answer(stream.data(), stream.size(), room.data(), room.size());
}

// ---- document 01's numbers ----------------------------------------------------------------------------------------

enum class Check : std::uint8_t {
    accepted = FRAMECHECK_ACCEPTED,
    few_entries = FRAMECHECK_FEW_ENTRIES,
    open_ring = FRAMECHECK_OPEN_RING,
    number_twice = FRAMECHECK_NUMBER_TWICE,
    zero_normal = FRAMECHECK_ZERO_NORMAL,
    edges_meet = FRAMECHECK_EDGES_MEET,
    not_planar = FRAMECHECK_NOT_PLANAR,
    few_polygons = FRAMECHECK_FEW_POLYGONS,
    edge_once = FRAMECHECK_EDGE_ONCE,
    edge_more_than_twice = FRAMECHECK_EDGE_MORE_THAN_TWICE,
    edge_same_direction = FRAMECHECK_EDGE_SAME_DIRECTION,
    not_reached = FRAMECHECK_NOT_REACHED,
    not_linked = FRAMECHECK_NOT_LINKED,
    no_volume = FRAMECHECK_NO_VOLUME,
};

// What one polygon was found to fail: the first of checks 01 to 06, or none.
enum class Finding : std::uint8_t {
    none = FRAMECHECK_ACCEPTED,
    few_entries = FRAMECHECK_FEW_ENTRIES,
    open_ring = FRAMECHECK_OPEN_RING,
    number_twice = FRAMECHECK_NUMBER_TWICE,
    zero_normal = FRAMECHECK_ZERO_NORMAL,
    edges_meet = FRAMECHECK_EDGES_MEET,
    not_planar = FRAMECHECK_NOT_PLANAR,
};

enum class Refusal : std::uint8_t {
    broken = FRAMECHECK_BROKEN,
    wrong_state = FRAMECHECK_WRONG_STATE,
    beyond_bound = FRAMECHECK_BEYOND_BOUND,
    table_full = FRAMECHECK_TABLE_FULL,
    unknown_number = FRAMECHECK_UNKNOWN_NUMBER,
    place_taken = FRAMECHECK_PLACE_TAKEN,
    late = FRAMECHECK_LATE,
};

enum class StreamRefusal : std::int8_t {
    too_long = FRAMECHECK_STREAM_TOO_LONG,
    too_many_lines = FRAMECHECK_TOO_MANY_LINES,
    room_too_short = FRAMECHECK_ROOM_TOO_SHORT,
};

// Document 01's number of any of the four.
template <class E> constexpr int number_of(E e) noexcept { return static_cast<int>(e); }

// Where in a ring a finding is met: 03 and 06 at an entry, 05 at an edge, which has the index of its first entry, the others nowhere.
struct Position {
    enum class Of : std::uint8_t { nothing, entry, edge } of = Of::nothing;
    std::uint16_t index = 0; // counted from 0; 0 where there is nothing
};

inline bool operator==(const Position &p, const Position &q) noexcept { return p.of == q.of && p.index == q.index; }

// What the position of a check or a finding is one of.
template <class E> constexpr Position::Of positioned(E e) noexcept {
    switch (number_of(e)) {
    case FRAMECHECK_NUMBER_TWICE: return Position::Of::entry;
    case FRAMECHECK_EDGES_MEET: return Position::Of::edge;
    case FRAMECHECK_NOT_PLANAR: return Position::Of::entry;
    default: return Position::Of::nothing;
    }
}

inline std::string_view sentence(Check c) noexcept { return framecheck_check_sentence(number_of(c)); }
inline std::string_view sentence(Finding f) noexcept { return framecheck_check_sentence(number_of(f)); }
inline std::string_view sentence(Refusal r) noexcept { return framecheck_refusal_sentence(number_of(r)); }
inline std::string_view sentence(StreamRefusal r) noexcept { return framecheck_stream_refusal_sentence(number_of(r)); }

// ---- answers ------------------------------------------------------------------------------------------------------

// A six-volume, which is in sixths of a cubic millimetre, in cubic metres; rounded twice at most, so keep the whole number.
inline double cubic_metres(std::int64_t six_volume) noexcept { return static_cast<double>(six_volume) / 6e9; }

struct Plain {}; // begin, point or polygon accepted

struct Report { // end of load, move or turn accepted
    Check check = Check::accepted;
    std::uint16_t a = 0, b = 0;     // the elements that the check names; of 03, 05 and 06 the polygon and its position
    std::uint16_t faulty = 0;       // polygons with a finding of their own
    std::int64_t six_volume = 0;    // exact, whether the building is accepted or not

    bool accepted() const noexcept { return check == Check::accepted; }
    Position position() const noexcept {
        const auto of = positioned(check);
        return {of, of == Position::Of::nothing ? std::uint16_t{0} : b};
    }
    double cubic_metres() const noexcept { return framecheck::cubic_metres(six_volume); }
};

struct PolygonAnswer { // question accepted
    Finding finding = Finding::none;
    Position position;              // where in its ring
    std::uint32_t stamp = 0;        // number of the last correction that touched the polygon
    std::int64_t part = 0;          // its part of the six-volume
};

struct EdgeAnswer { // edge question accepted
    std::uint16_t users = 0;                    // a polygon once for each time that its ring uses the edge
    std::optional<std::uint16_t> first, second; // the two lowest of them, so that one polygon may be both

    // The polygon across the edge from one that uses it; nothing where the edge has another number of users than two.
    std::optional<std::uint16_t> across_from(std::uint16_t polygon) const noexcept {
        if (users != 2 || (first != polygon && second != polygon)) return std::nullopt;
        return first == polygon ? second : first;
    }
};

struct Refused {
    Refusal refusal = Refusal::broken;
};

using Answer = std::variant<Plain, Report, PolygonAnswer, EdgeAnswer, Refused>;

inline bool operator==(const Plain &, const Plain &) noexcept { return true; }
inline bool operator==(const Report &p, const Report &q) noexcept {
    return p.check == q.check && p.a == q.a && p.b == q.b && p.faulty == q.faulty && p.six_volume == q.six_volume;
}
inline bool operator==(const PolygonAnswer &p, const PolygonAnswer &q) noexcept {
    return p.finding == q.finding && p.position == q.position && p.stamp == q.stamp && p.part == q.part;
}
inline bool operator==(const EdgeAnswer &p, const EdgeAnswer &q) noexcept {
    return p.users == q.users && p.first == q.first && p.second == q.second;
}
inline bool operator==(const Refused &p, const Refused &q) noexcept { return p.refusal == q.refusal; }

// The sentence of a polygon's finding with its position: "Edge 17 of polygon 3 meets another edge where it must not."
inline std::string sentence(Finding f, std::size_t polygon, Position position) {
    const char *with_letters = framecheck_position_sentence(number_of(f));
    if (with_letters == nullptr) return std::string(sentence(f));
    std::string text;
    for (std::string_view rest = with_letters; !rest.empty();) {
        const std::string_view word = rest.substr(0, rest.find(' '));
        rest.remove_prefix(std::min(word.size() + 1, rest.size()));
        if (!text.empty()) text += ' ';
        text += word == "a" ? std::to_string(polygon) : word == "b" ? std::to_string(position.index) : std::string(word);
    }
    return text;
}

// The sentence of a report: that of the finding that it names, with its position, or that of its check.
inline std::string sentence(const Report &r) {
    if (positioned(r.check) == Position::Of::nothing) return std::string(sentence(r.check));
    return sentence(static_cast<Finding>(r.check), r.a, r.position());
}

// Thrown where answer bytes are not of document 01's form: the archive linked is not this checker.
class Unreadable : public std::runtime_error {
  public:
    explicit Unreadable(const std::string &line) : std::runtime_error("framecheck: unreadable answer '" + line + "'") {}
};

namespace detail {

inline int digit(char c) noexcept { return c >= '0' && c <= '9' ? c - '0' : c >= 'A' && c <= 'F' ? c - 'A' + 10 : -1; }

inline bool digits(std::string_view text) noexcept {
    return std::all_of(text.begin(), text.end(), [](char c) { return digit(c) >= 0; });
}

inline std::uint64_t number(std::string_view text) noexcept {
    std::uint64_t value = 0;
    for (char c : text) value = value << 4 | static_cast<std::uint64_t>(digit(c));
    return value;
}

inline std::string hex(std::uint64_t value, int count) {
    std::string text(static_cast<std::size_t>(count), '0');
    for (std::size_t i = text.size(); i-- > 0; value >>= 4) text[i] = "0123456789ABCDEF"[value & 15];
    return text;
}

inline std::int64_t signed_number(std::string_view sixteen) noexcept {
    const std::uint64_t raw = number(sixteen);
    return raw <= INT64_MAX ? static_cast<std::int64_t>(raw) : -static_cast<std::int64_t>(~raw) - 1;
}

// The text's lines, counted as document 01 counts them.
inline std::vector<std::string_view> lines(std::string_view text) {
    std::vector<std::string_view> all;
    for (std::size_t at = 0; at < text.size();) {
        const std::size_t end = std::min(text.find('\n', at), text.size());
        all.push_back(text.substr(at, end - at));
        at = end + 1;
    }
    return all;
}

} // namespace detail

namespace detail {

inline Report read_report(std::string_view line) noexcept {
    const auto four = [&](std::size_t at) { return static_cast<std::uint16_t>(number(line.substr(at, 4))); };
    return {static_cast<Check>(number(line.substr(2, 2))), four(4), four(8), four(12), signed_number(line.substr(16))};
}

inline PolygonAnswer read_polygon_answer(std::string_view line) {
    const auto finding = static_cast<Finding>(number(line.substr(2, 2)));
    const Position position{positioned(finding), static_cast<std::uint16_t>(number(line.substr(4, 4)))};
    if (position.of == Position::Of::nothing && position.index != 0) throw Unreadable(std::string(line));
    return {finding, position, static_cast<std::uint32_t>(number(line.substr(8, 8))), signed_number(line.substr(16))};
}

// One of an edge's two lowest users, which must be there or not as their count tells.
inline std::optional<std::uint16_t> read_user(std::string_view line, std::size_t at, bool there) {
    const std::uint64_t user = number(line.substr(at, 4));
    if (there ? user >= FRAMECHECK_MOST_POLYGONS : user != FRAMECHECK_NO_USER) throw Unreadable(std::string(line));
    return there ? std::optional(static_cast<std::uint16_t>(user)) : std::nullopt;
}

inline EdgeAnswer read_edge_answer(std::string_view line) {
    const auto users = static_cast<std::uint16_t>(number(line.substr(2, 4)));
    const EdgeAnswer answer{users, read_user(line, 6, users >= 1), read_user(line, 10, users >= 2)};
    if (users > FRAMECHECK_MOST_ENTRIES || (answer.second && *answer.first > *answer.second)) throw Unreadable(std::string(line));
    return answer;
}

} // namespace detail

// The answer to a line, line feeds left off both. The line's kind tells what an accepted one says: a report and a question's answer
// are of one length.
inline Answer read_answer(std::string_view frame, std::string_view line) {
    const std::string_view kind = frame.substr(0, 2);
    if (detail::digits(line) && line.size() == 2) {
        const int head = static_cast<int>(detail::number(line));
        if (head == 0 && (kind == "01" || kind == "02" || kind == "03")) return Plain{};
        if (head != 0 && head <= number_of(Refusal::late)) return Refused{static_cast<Refusal>(head)};
    }
    if (detail::digits(line) && line.size() == 32 && line.substr(0, 2) == "00") {
        const int what = static_cast<int>(detail::number(line.substr(2, 2)));
        if ((kind == "04" || kind == "05" || kind == "06") && what <= number_of(Check::no_volume)) return detail::read_report(line);
        if (kind == "07" && what <= number_of(Finding::not_planar)) return detail::read_polygon_answer(line);
    }
    if (detail::digits(line) && line.size() == 14 && line.substr(0, 2) == "00" && kind == "0C") return detail::read_edge_answer(line);
    throw Unreadable(std::string(line));
}

struct Answers {
    std::optional<StreamRefusal> refused; // of the stream as a whole; then there are no lines
    std::vector<Answer> lines;            // one for each line of the stream
};

// The service entry with room of its own and typed answers.
inline Answers answer_all(Bytes stream) {
    const std::size_t lines = std::min<std::size_t>(stream.lines(), FRAMECHECK_MOST_LINES);
    std::string room(lines * FRAMECHECK_ROOM_A_LINE, '\0');
    const std::int64_t got = answer(stream, room);
    if (got < 0) return {static_cast<StreamRefusal>(got), {}};
    if (static_cast<std::uint64_t>(got) > room.size()) throw Unreadable("more answer than room");
    room.resize(static_cast<std::size_t>(got));
    const auto frames = detail::lines({reinterpret_cast<const char *>(stream.data()), stream.size()}), given = detail::lines(room);
    if (given.size() != frames.size()) throw Unreadable("an answer count other than the line count");
    Answers all;
    for (std::size_t i = 0; i < given.size(); i++) all.lines.push_back(read_answer(frames[i], given[i]));
    return all;
}

// ---- a building ---------------------------------------------------------------------------------------------------

enum class Route : std::uint8_t { fast, slow };

struct Waiting { // not passed yet: with it and the lines left for questions the stream would be refused by this number
    StreamRefusal bound = StreamRefusal::too_many_lines;
};

struct NotACorrection {}; // a begin, load frame or question that came where corrections come: kept, never passed

// One frame that came by a route, and what became of it.
struct Correction {
    std::size_t arrival = 0;              // 0, 1, 2 ..: the order of coming, both routes together
    Route route = Route::fast;
    std::string frame;                    // as sent, its line feed left off
    std::optional<std::uint32_t> number;  // the correction's number, where it can be read
    std::variant<Report, Refused, Waiting, NotACorrection> outcome = NotACorrection{};

    const Report *accepted() const noexcept { return std::get_if<Report>(&outcome); }
    const Refused *refused() const noexcept { return std::get_if<Refused>(&outcome); }
    const Waiting *waiting() const noexcept { return std::get_if<Waiting>(&outcome); }
    bool late() const noexcept { return refused() != nullptr && refused()->refusal == Refusal::late; }
};

struct RefusedLine { // of a load
    std::size_t line = 0; // counted from 0
    std::string frame;
    Refusal refusal = Refusal::broken;
};

struct Loaded {
    std::optional<StreamRefusal> bound;    // the load does not fit with the lines left for questions; nothing held has changed
    bool held = false;                     // a building is held
    std::vector<RefusedLine> refused;      // lines that the service refused: the building is held without them
    std::vector<Correction> before;        // what had come for the building that this load replaced, waiting frames too
};

enum class Folding : std::uint8_t {
    by_hand,   // frames that do not fit wait until fold() is called
    when_full, // the history is folded when a frame does not fit
};

enum class Folded : std::uint8_t { done, nothing_held, not_equal };

using Reply = std::variant<PolygonAnswer, Refused>;
using EdgeReply = std::variant<EdgeAnswer, Refused>;

// Keeps one building's frames and passes them all again at each question, as document 01 asks of a host. Corrections are
// passed in the order in which they come; the service alone decides which are late. Some lines are always left for questions.
class Building {
  public:
    static constexpr std::size_t question_lines = 32; // left free, so that 256 polygons are asked in 8 calls at worst

    explicit Building(Folding folding = Folding::by_hand) : folding_(folding) {}

    // Takes a load's lines as sent, from begin to end of load, in place of all that was held.
    Loaded load(std::string_view text) {
        Loaded result;
        result.held = held_;
        result.bound = no_room(text.size() + (text.empty() || text.back() == '\n' ? 0 : 1), Bytes(text).lines());
        if (result.bound) return result;
        const Answers answers = answer_all(text);
        if (answers.refused) throw Unreadable("a refusal of a stream within its bounds");
        result.before = std::move(log_);
        const Folding folding = folding_;
        *this = Building(folding);
        const auto lines = detail::lines(text);
        for (std::size_t i = 0; i < lines.size(); i++) {
            append(lines[i]);
            note(lines[i], answers.lines[i]);
            if (const auto *no = std::get_if<Refused>(&answers.lines[i]))
                result.refused.push_back({i, std::string(lines[i]), no->refusal});
        }
        result.held = held_;
        return result;
    }

    // Takes one correction, with or without its line feed; what became of it comes back and stays in corrections().
    Correction take(std::string_view frame, Route route) {
        if (!frame.empty() && frame.back() == '\n') frame.remove_suffix(1);
        const std::size_t arrival = receive(frame, route);
        advance();
        return log_[arrival];
    }

    // Takes many corrections, one a line, in as few calls as may be; the first new record's arrival comes back.
    std::size_t take_lines(std::string_view text, Route route) {
        const std::size_t first = log_.size();
        for (auto line : detail::lines(text)) receive(line, route);
        advance();
        return first;
    }

    bool held() const noexcept { return held_; }

    // The report after the last accepted correction, or after the load if there was none; nothing while none is held.
    const std::optional<Report> &report() const noexcept { return report_; }

    std::size_t points() const noexcept { return points_.size(); }
    std::size_t polygons() const noexcept { return rings_.size(); }
    std::uint32_t last_number() const noexcept { return last_; }

    // One polygon's answer; all frames are passed again.
    Reply question(std::uint16_t polygon) const {
        const auto reply = ask<PolygonAnswer>("07" + detail::hex(polygon, 4));
        if (const auto *answer = std::get_if<PolygonAnswer>(&reply)) return with_stamp(*answer, polygon);
        return reply;
    }

    // Who uses the edge between two points, in either order; all frames are passed again.
    EdgeReply across(std::uint16_t a, std::uint16_t b) const { return ask<EdgeAnswer>("0C" + detail::hex(a, 4) + detail::hex(b, 4)); }

    // Every polygon's answer, in order, with as many questions a call as fit.
    std::vector<PolygonAnswer> polygon_answers() const {
        std::vector<PolygonAnswer> all;
        while (held_ && all.size() < rings_.size()) {
            std::string stream = stream_;
            std::size_t lines = lines_, asked = 0;
            for (; all.size() + asked < rings_.size(); asked++, lines++) {
                const std::string line = "07" + detail::hex(all.size() + asked, 4) + "\n";
                if (asked > 0 && (stream.size() + line.size() > FRAMECHECK_MOST_BYTES || lines + 1 > FRAMECHECK_MOST_LINES)) break;
                stream += line;
            }
            const Answers answers = answer_all(stream);
            if (answers.refused) throw Unreadable("a refusal of a stream within its bounds");
            for (std::size_t i = answers.lines.size() - asked; i < answers.lines.size(); i++) {
                const auto *one = std::get_if<PolygonAnswer>(&answers.lines[i]);
                if (one == nullptr) throw Unreadable("no answer to a question");
                all.push_back(with_stamp(*one, all.size()));
            }
        }
        return all;
    }

    // Everything that came since the load, in the order of coming, with what became of it.
    const std::vector<Correction> &corrections() const noexcept { return log_; }

    // The refused ones among them, late or otherwise.
    std::vector<Correction> refused() const {
        std::vector<Correction> some;
        std::copy_if(log_.begin(), log_.end(), std::back_inserter(some), [](const Correction &c) { return c.refused() != nullptr; });
        return some;
    }

    // How many frames wait for room. While any does, report() is of the frames before them.
    std::size_t waiting() const noexcept { return queue_.size(); }

    // Puts a fresh load of the corrected tables in place of the load and its history, then passes the frames that waited. By
    // demand 3 every report after it is the one that the whole history would have given; the fresh load's report is compared
    // all the same, and nothing changes where it differs. Numbers up to the last folded one stay late: the fresh load is
    // followed by a move of a point to its own place that carries it.
    Folded fold() {
        const Folded folded = fold_history();
        if (folded == Folded::done) advance();
        return folded;
    }

    // What is passed: the frames kept, each ended by a line feed.
    const std::string &stream() const noexcept { return stream_; }
    std::size_t lines() const noexcept { return lines_; }
    std::size_t times_folded() const noexcept { return folds_; }

  private:
    static constexpr std::size_t question_bytes = 11; // the longest: "0C", eight digits, a line feed

    Folding folding_;
    std::string stream_;
    std::size_t lines_ = 0;
    std::vector<Correction> log_;
    std::deque<std::size_t> queue_; // arrivals that wait
    bool held_ = false;
    std::optional<Report> report_;
    std::uint32_t last_ = 0;

    // The corrected tables, in the digits that were sent.
    std::string tolerance_;
    std::vector<std::string> points_, rings_;

    std::size_t folds_ = 0;
    std::uint32_t folded_last_ = 0;             // last number when the history was folded
    std::vector<std::uint32_t> folded_stamps_;  // stamps at that time

    // The refusal that a stream of this size would get with the lines that are left for questions.
    static std::optional<StreamRefusal> no_room(std::size_t bytes, std::size_t lines) {
        if (bytes + question_lines * question_bytes > FRAMECHECK_MOST_BYTES) return StreamRefusal::too_long;
        if (lines + question_lines > FRAMECHECK_MOST_LINES) return StreamRefusal::too_many_lines;
        return std::nullopt;
    }

    // What comes back to one question after all the frames.
    template <class Wanted> std::variant<Wanted, Refused> ask(const std::string &line) const {
        const Answers answers = answer_all(stream_ + line);
        if (answers.refused) throw Unreadable("a refusal of a stream within its bounds");
        const Answer &last = answers.lines.back();
        if (const auto *no = std::get_if<Refused>(&last)) return *no;
        if (!std::holds_alternative<Wanted>(last)) throw Unreadable("no answer to a question");
        return std::get<Wanted>(last);
    }

    // Puts a frame on record and in the queue. A frame that would drop the building is never passed; one that cannot be a
    // line of the frame table for its length or a line feed inside is refused here, since passing it could push others out.
    std::size_t receive(std::string_view frame, Route route) {
        Correction c;
        c.arrival = log_.size();
        c.route = route;
        c.frame = std::string(frame);
        const std::string_view kind = frame.substr(0, 2);
        if ((kind == "05" && frame.size() == 38) || (kind == "06" && frame.size() == 14))
            if (detail::digits(frame.substr(2, 8))) c.number = static_cast<std::uint32_t>(detail::number(frame.substr(2, 8)));
        const bool passed_on = kind != "01" && kind != "02" && kind != "03" && kind != "04" && kind != "07" && kind != "0C";
        if (frame.size() > FRAMECHECK_LONGEST_FRAME || frame.find('\n') != std::string_view::npos) c.outcome = Refused{Refusal::broken};
        else if (passed_on) c.outcome = Waiting{};
        const bool queued = c.waiting() != nullptr;
        log_.push_back(std::move(c));
        if (queued) queue_.push_back(log_.size() - 1);
        return log_.size() - 1;
    }

    // Passes the frames that wait, as far as they fit, in one call for each piece.
    void advance() {
        while (!queue_.empty()) {
            const auto bound = pass_what_fits();
            if (!bound) return;
            for (std::size_t arrival : queue_) log_[arrival].outcome = Waiting{*bound};
            if (folding_ != Folding::when_full || fold_history() != Folded::done) return;
            if (no_room(stream_.size() + log_[queue_.front()].frame.size() + 1, lines_ + 1)) return;
        }
    }

    // The bound that the first frame left in the queue would pass, or nothing where none is left.
    std::optional<StreamRefusal> pass_what_fits() {
        std::string stream = stream_;
        std::size_t fit = 0;
        std::optional<StreamRefusal> bound;
        for (; fit < queue_.size(); fit++) {
            const std::string &frame = log_[queue_[fit]].frame;
            bound = no_room(stream.size() + frame.size() + 1, lines_ + fit + 1);
            if (bound) break;
            stream += frame + "\n";
        }
        if (fit == 0) return bound;
        const Answers answers = answer_all(stream);
        if (answers.refused) throw Unreadable("a refusal of a stream within its bounds");
        for (std::size_t i = 0; i < fit; i++) settle(log_[queue_[i]], answers.lines[lines_ + i]);
        queue_.erase(queue_.begin(), queue_.begin() + static_cast<std::ptrdiff_t>(fit));
        stream_ = std::move(stream);
        lines_ += fit;
        return bound;
    }

    void settle(Correction &c, const Answer &answer) {
        if (const auto *report = std::get_if<Report>(&answer)) c.outcome = *report;
        else if (const auto *no = std::get_if<Refused>(&answer)) c.outcome = *no;
        else throw Unreadable("no answer to a correction");
        note(c.frame, answer);
    }

    void append(std::string_view line) {
        stream_.append(line).push_back('\n');
        lines_++;
    }

    // Keeps the tables as an accepted frame leaves them; refused frames and questions leave them as they are.
    void note(std::string_view frame, const Answer &answer) {
        if (!std::holds_alternative<Plain>(answer) && !std::holds_alternative<Report>(answer)) return;
        if (const auto *report = std::get_if<Report>(&answer)) report_ = *report;
        switch (frame[1]) {
        case '1':
            tolerance_ = frame.substr(2);
            points_.clear();
            rings_.clear();
            held_ = false;
            report_.reset();
            break;
        case '2': points_.emplace_back(frame.substr(2)); break;
        case '3': rings_.emplace_back(frame.substr(2)); break;
        case '4':
            held_ = true;
            last_ = 0;
            break;
        case '5':
            points_.at(detail::number(frame.substr(10, 4))) = frame.substr(14);
            last_ = static_cast<std::uint32_t>(detail::number(frame.substr(2, 8)));
            break;
        default:
            turn(rings_.at(detail::number(frame.substr(10, 4))));
            last_ = static_cast<std::uint32_t>(detail::number(frame.substr(2, 8)));
        }
    }

    static void turn(std::string &ring) { // four digits an entry
        std::string turned;
        for (std::size_t at = ring.size(); at > 0; at -= 4) turned.append(ring, at - 4, 4);
        ring = turned;
    }

    // After folding, a stamp not above the folded number can only be that of the frame that carries it.
    PolygonAnswer with_stamp(PolygonAnswer answer, std::size_t polygon) const {
        if (folds_ > 0 && answer.stamp <= folded_last_) answer.stamp = folded_stamps_.at(polygon);
        return answer;
    }

    Folded fold_history() {
        if (!held_) return Folded::nothing_held;
        std::vector<std::uint32_t> stamps;
        for (const auto &one : polygon_answers()) stamps.push_back(one.stamp);
        std::string fresh = "01" + tolerance_ + "\n";
        for (const auto &point : points_) fresh += "02" + point + "\n";
        for (const auto &ring : rings_) fresh += "03" + ring + "\n";
        fresh += "04\n";
        const std::size_t end = 1 + points_.size() + rings_.size();
        // A correction was accepted, so there is a point or, of a building without points, an empty ring to turn.
        if (last_ != 0 && !points_.empty()) fresh += "05" + detail::hex(last_, 8) + "0000" + points_[0] + "\n";
        else if (last_ != 0) fresh += "06" + detail::hex(last_, 8) + "0000\n";
        const Answers answers = answer_all(fresh);
        if (answers.refused) return Folded::not_equal;
        for (std::size_t i = 0; i < answers.lines.size(); i++)
            if (i < end ? !std::holds_alternative<Plain>(answers.lines[i]) : !(answers.lines[i] == Answer(*report_))) return Folded::not_equal;
        stream_ = std::move(fresh);
        lines_ = answers.lines.size();
        folded_last_ = last_;
        folded_stamps_ = std::move(stamps);
        folds_++;
        return Folded::done;
    }
};

} // namespace framecheck

#endif
