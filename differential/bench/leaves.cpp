// Times of the leaves: MD5 beside OpenSSL's in one run, and the description of an encoding with nine own floats.
#include <openssl/md5.h>

#include <algorithm>
#include <chrono>
#include <cstdint>
#include <cstdio>
#include <cstring>

extern "C" size_t leaf_md5(const uint8_t *data, size_t data_len, uint8_t *out, size_t len);
extern "C" size_t leaf_description(uint32_t kind, uint32_t white, uint32_t wx, uint32_t wy, uint32_t primaries,
                                   uint32_t rx, uint32_t ry, uint32_t gx, uint32_t gy, uint32_t bx, uint32_t by,
                                   uint32_t curve, uint32_t gamma, uint32_t intent, uint8_t *out, size_t len);

static uint32_t bits(float x) {
    uint32_t b;
    std::memcpy(&b, &x, 4);
    return b;
}

// Nanoseconds for one of 2,000 calls.
template <class F> static double turn(F f) {
    auto from = std::chrono::steady_clock::now();
    for (int i = 0; i < 2000; i++) f(i);
    return std::chrono::duration<double, std::nano>(std::chrono::steady_clock::now() - from).count() / 2000;
}

int main() {
    uint8_t data[1200], out[512];
    for (size_t i = 0; i < sizeof data; i++) data[i] = uint8_t(i * 7 + 3);
    // The best of 200 turns each, in turn, so that both meet the same load of the machine.
    for (size_t n : {504, 1200}) {
        double ours = 1e18, theirs = 1e18;
        for (int k = 0; k < 200; k++) {
            ours = std::min(ours, turn([&](int) { leaf_md5(data, n, out, sizeof out), data[0] = out[0]; }));
            theirs = std::min(theirs, turn([&](int) { MD5(data, n, out), data[0] = out[0]; }));
        }
        std::printf("MD5 of %zu bytes: %.0f ns, OpenSSL %.0f ns, ratio %.2f\n", n, ours, theirs, ours / theirs);
    }
    double text = 1e18;
    for (int k = 0; k < 200; k++)
        text = std::min(text, turn([&](int i) {
            float d = float(i % 1024) * 0.0001f;
            leaf_description(2, 3, bits(0.3127f + d), bits(0.329f + d), 3, bits(0.64f + d), bits(0.33f + d),
                             bits(0.3f + d), bits(0.6f + d), bits(0.15f + d), bits(0.06f + d), 6, bits(0.45455f + d), 1,
                             out, sizeof out);
        }));
    std::printf("description with nine own floats: %.0f ns\n", text);
}
