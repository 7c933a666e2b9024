// libFuzzer: the bytes choose frames, nearly all of them well formed, over few points on a small grid. This reaches the checks
// that a stream of chance bytes seldom does.
#include "compare.hpp"
#include "streams.hpp"

namespace {

class Choices {
  public:
    Choices(const std::uint8_t *data, std::size_t size) : at_(data), end_(data + size) {}
    bool left() const { return at_ < end_; }
    int byte() { return at_ < end_ ? *at_++ : 0; }
    int below(int n) { return n > 0 ? byte() % n : 0; }

  private:
    const std::uint8_t *at_, *end_;
};

streams::Place place(Choices &c) {
    const int b = c.byte(), step = 1 + c.below(3) * 499;
    streams::Place p{(b & 3) * step, (b >> 2 & 3) * step, (b >> 4 & 3) * step};
    if (b >> 6 == 3) p[static_cast<std::size_t>(c.below(3))] = (c.byte() - 128) * 787; // also beyond the bound
    return p;
}

streams::Ring ring(Choices &c, int points) {
    streams::Ring r;
    const int shape = c.byte(), n = shape % 9;
    for (int i = 0; i < n; i++) r.push_back(c.below(points + (shape > 250)));
    if (n > 0 && shape % 16 != 0) r.push_back(r[0]);
    return r;
}

// The stream as it grows, with what its next frames go by.
struct Writer {
    std::string stream;
    int points = 0, polygons = 0;
    std::uint32_t number = 0;

    void solid(int start) {
        const auto model = start % 8 == 0 ? streams::tetrahedron() : start % 3 == 0 ? streams::gabled_house() : streams::box();
        stream = streams::load(model);
        points = static_cast<int>(model.points.size());
        polygons = static_cast<int>(model.rings.size());
    }

    void load_frame(int kind, Choices &c) {
        if (kind < 8) {
            stream += streams::begin(c.byte() * (kind == 0 ? 4 : 1));
            points = polygons = 0;
        } else if (kind < 70) {
            stream += streams::point(place(c));
            points++;
        } else if (kind < 130) {
            stream += streams::polygon(ring(c, points));
            polygons++;
        } else {
            stream += streams::end_of_load();
            number = 0;
        }
    }

    void correction(int kind, Choices &c) {
        number += static_cast<std::uint32_t>(c.below(8) - 1);
        if (kind < 190) {
            const int which = c.below(points + (kind == 150));
            stream += streams::move(number, which, place(c));
        } else {
            stream += streams::turn(number, c.below(polygons + (kind == 190)));
        }
    }

    void question(int kind, Choices &c) {
        if (kind < 232) {
            stream += streams::question(c.below(polygons + (kind == 215)));
        } else {
            const int a = c.below(points + (kind == 232)), b = c.below(points + (kind == 233));
            stream += streams::across(a, b);
        }
    }
};

} // namespace

extern "C" int LLVMFuzzerTestOneInput(const std::uint8_t *data, std::size_t size) {
    if (size > 4096) return 0;
    Choices c(data, size);
    const int start = c.byte();
    Writer w;
    if (start % 4 == 0) w.solid(start); // to begin with
    while (c.left() && w.stream.size() < 60000) {
        const int kind = c.byte();
        if (kind < 150) w.load_frame(kind, c);
        else if (kind < 215) w.correction(kind, c);
        else if (kind < 250) w.question(kind, c);
        else (w.stream += static_cast<char>(c.byte())) += "\n";
    }
    fuzz::compare(reinterpret_cast<const std::uint8_t *>(w.stream.data()), w.stream.size());
    return 0;
}
