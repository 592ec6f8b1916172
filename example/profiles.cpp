// Writes the profiles of sRGB, of sRGB for a device and of an own encoding to files, prints their lengths and ids, and shows a
// count of numbers that were rounded and a refusal.
//
//    c++ -o profiles profiles.cpp $(pkg-config --cflags --libs merqyduk)
//    ./profiles
#include <merqyduk.hpp>

#include <cstdio>
#include <fstream>

using merqyduk::Curve;
using merqyduk::Device;
using merqyduk::Encoding;
using merqyduk::Intent;
using merqyduk::Primaries;
using merqyduk::White;

// Returns whether the profile was written and saved.
static bool save(const char *name, const Encoding &encoding) {
    const merqyduk::Profile profile = merqyduk::write(encoding);
    if (!profile) {
        std::printf("%s: refused %u, %s\n", name, unsigned(profile.answer().refusal()), profile.answer().text());
        return false;
    }
    std::ofstream file(name, std::ios::binary);
    file.write(reinterpret_cast<const char *>(profile.data()), std::streamsize(profile.size()));
    file.close();
    if (!file) {
        std::printf("%s: cannot be written\n", name);
        return false;
    }
    std::printf("%s: %zu bytes, id ", name, profile.size());
    for (const auto byte : profile.id()) std::printf("%02x", byte);
    std::printf("\n");
    return true;
}

int main() {
    bool ok = save("srgb.icc", Encoding::srgb());

    // The same with maker and model of a device. The profile has another id.
    ok &= save("device.icc", Encoding::srgb(Intent::perceptual, Device::of("ACME", "PLT1")));

    // An own white, own primaries and a display gamma of 2.2, and how many of the profile's numbers were rounded.
    const Encoding own = Encoding::rgb(White::own(0.3457f, 0.3585f),
                                       Primaries::own(0.64f, 0.33f, 0.21f, 0.71f, 0.15f, 0.06f),
                                       Curve::display_gamma(2.2f), Intent::relative);
    ok &= save("own.icc", own);
    std::printf("own.icc: %u of its numbers were rounded\n", unsigned(merqyduk::write(own).rounded()));

    // PQ is refused, and no file is written.
    ok &= !save("pq.icc", Encoding::gray(White::d65(), Curve::pq(), Intent::relative));

    return ok ? 0 : 1;
}
