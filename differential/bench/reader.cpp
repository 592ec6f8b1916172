// Times of the reader beside the MD5 of its file, in one run. A record of no bytes is lent, so that the reader's own time shows: it answers 9 once it
// has accepted the file.
#include "merqyduk.hpp"

#include <algorithm>
#include <chrono>
#include <cstdint>
#include <cstdio>

extern "C" size_t leaf_md5(const uint8_t *data, size_t data_len, uint8_t *out, size_t len);

using namespace merqyduk;

// Nanoseconds for one of 200 calls.
template <class F> static double turn(F f) {
    auto from = std::chrono::steady_clock::now();
    for (int i = 0; i < 200; i++) f();
    return std::chrono::duration<double, std::nano>(std::chrono::steady_clock::now() - from).count() / 200;
}

int main() {
    const Primaries own = Primaries::own(0.64f, 0.33f, 0.3f, 0.6f, 0.15f, 0.06f);
    const struct {
        const char *name;
        Profile profile;
    } files[] = {
        {"sRGB", write(Encoding::srgb())},
        {"own primaries with gamma",
         write(Encoding::rgb(White::own(0.3f, 0.33f), own, Curve::encoding_gamma(0.45f), Intent::relative))},
        {"gray", write(Encoding::gray(White::d65(), Curve::srgb(), Intent::relative))},
        {"XYB", write(Encoding::xyb())},
        {"RGB without cicp", write(Encoding::rgb(White::e(), Primaries::srgb(), Curve::srgb(), Intent::relative))},
    };
    volatile uint32_t sink = 0;
    for (const auto &f : files) {
        const uint8_t *file = f.profile.data();
        const size_t n = f.profile.size();
        if (merqyduk_read(file, n, nullptr, 0) != MERQYDUK_REFUSED_OUTPUT) return 1;
        double reader = 1e18, md5 = 1e18;
        uint8_t digest[16];
        // The best of 3,000 turns each, in turn, so that both meet the same load of the machine.
        for (int k = 0; k < 3000; k++) {
            reader = std::min(reader, turn([&] { sink = sink + merqyduk_read(file, n, nullptr, 0); }));
            md5 = std::min(md5, turn([&] { leaf_md5(file, n, digest, sizeof digest), sink = sink + digest[0]; }));
        }
        std::printf("reader on %s, %zu bytes: %.0f ns, MD5 %.0f ns, ratio %.2f\n", f.name, n, reader, md5, reader / md5);
    }
}
