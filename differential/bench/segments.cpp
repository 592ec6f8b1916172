// Times of the calls on segments beside the reader on the same file, in one run. The reader is lent a record of no bytes, so that its own time shows: it
// answers 9 once it has accepted the file. What is joined stands in reverse order.
#include "merqyduk.hpp"

#include <algorithm>
#include <chrono>
#include <cstdint>
#include <cstdio>
#include <cstring>
#include <vector>

using namespace merqyduk;

// Data of a segment: with SOME the files are in 2, 3 and 4 segments, with FEW bytes in 21, 32 and 45, with the FEWEST in 66, 101 and 144.
static const size_t SOME = 200, FEW = 16, FEWEST = 5;

// Nanoseconds for one of 200 calls.
template <class F> static double turn(F f) {
    auto from = std::chrono::steady_clock::now();
    for (int i = 0; i < 200; i++) f();
    return std::chrono::duration<double, std::nano>(std::chrono::steady_clock::now() - from).count() / 200;
}

// The segments of `size` bytes of data that hold the file, the last first; empty where the library does not put it in.
static std::vector<uint8_t> reversed(const Profile &file, size_t size) {
    std::vector<uint8_t> out(MERQYDUK_MAX_SEGMENTS_LENGTH), all;
    const size_t length = merqyduk_write_segments(file.data(), file.size(), size, out.data(), out.size());
    if (length < 100) return all;
    const size_t step = MERQYDUK_SEGMENT_FRONT + size;
    for (size_t i = (length - 1) / step + 1; i-- > 0;)
        all.insert(all.end(), out.begin() + i * step, out.begin() + std::min(length, (i + 1) * step));
    return all;
}

// The file in segments of one size, and the best times.
struct Trial {
    size_t size;
    std::vector<uint8_t> segments;
    double writing, joining;
};

int main() {
    const struct {
        const char *name;
        Profile profile;
    } files[] = {
        {"gray", write(Encoding::gray(White::d65(), Curve::srgb(), Intent::relative))},
        {"sRGB", write(Encoding::srgb())},
        {"XYB", write(Encoding::xyb())},
    };
    volatile uint32_t sink = 0;
    static uint8_t out[MERQYDUK_MAX_SEGMENTS_LENGTH];
    for (const auto &f : files) {
        const uint8_t *file = f.profile.data();
        const size_t n = f.profile.size();
        if (merqyduk_read(file, n, nullptr, 0) != MERQYDUK_REFUSED_OUTPUT) return 1;
        double reader = 1e18;
        std::vector<Trial> trials;
        for (size_t size : {size_t(MERQYDUK_MAX_SEGMENT_DATA), SOME, FEW, FEWEST}) {
            Trial t{size, reversed(f.profile, size), 1e18, 1e18};
            if (merqyduk_join_segments(t.segments.data(), t.segments.size(), out, sizeof out) != n || std::memcmp(out, file, n)) return 1;
            trials.push_back(t);
        }
        // The best of 3,000 turns each, in turn, so that all meet the same load of the machine. Of the many segments only every 20th turn is taken.
        for (int k = 0; k < 3000; k++) {
            reader = std::min(reader, turn([&] { sink = sink + merqyduk_read(file, n, nullptr, 0); }));
            for (Trial &t : trials) {
                if (t.size == FEWEST && k % 20 != 0) continue;
                t.writing = std::min(t.writing, turn([&] { sink = sink + merqyduk_write_segments(file, n, t.size, out, sizeof out); }));
                t.joining = std::min(t.joining, turn([&] {
                    sink = sink + merqyduk_join_segments(t.segments.data(), t.segments.size(), out, sizeof out);
                }));
            }
        }
        for (const Trial &t : trials)
            std::printf("%s, %zu bytes, reader %.0f ns; data of %zu bytes in a segment: writing %.0f ns, ratio %.2f, joining %.0f ns, ratio %.2f\n", f.name, n,
                        reader, std::min(t.size, n), t.writing, t.writing / reader, t.joining, t.joining / reader);
    }
}
