// Writes a spread of profiles of every kind into the folder that it is given, and prints name, kind and meaning of each.
#include <merqyduk.hpp>

#include <cstdio>
#include <fstream>
#include <string>

using merqyduk::Curve;
using merqyduk::Encoding;
using merqyduk::Intent;
using merqyduk::Primaries;
using merqyduk::White;

int main(int argc, char **argv) {
    if (argc != 2) {
        std::fprintf(stderr, "profiles FOLDER\n");
        return 2;
    }
    const White d65 = White::d65(), own_white = White::own(0.3457f, 0.3585f);
    const Primaries own_primaries = Primaries::own(0.64f, 0.33f, 0.21f, 0.71f, 0.15f, 0.06f);
    const Curve gamma = Curve::display_gamma(2.2f);
    const Intent relative = Intent::relative;
    // What the encoding means by its standard, for lcms2 to make a profile of its own from: white, primaries, curve.
    const struct {
        const char *name, *kind;
        Encoding encoding;
        const char *means;
    } all[] = {
        {"srgb", "RGB, cicp", Encoding::srgb(), "0.3127 0.329 0.64 0.33 0.3 0.6 0.15 0.06 srgb"},
        {"srgb-absolute", "RGB, cicp", Encoding::srgb(Intent::absolute),
         "0.3127 0.329 0.64 0.33 0.3 0.6 0.15 0.06 srgb"},
        {"srgb-linear", "RGB, cicp", Encoding::rgb(d65, Primaries::srgb(), Curve::linear(), relative),
         "0.3127 0.329 0.64 0.33 0.3 0.6 0.15 0.06 1"},
        {"bt2100-bt709", "RGB, cicp", Encoding::rgb(d65, Primaries::bt2100(), Curve::bt709(), Intent::saturation),
         "0.3127 0.329 0.708 0.292 0.17 0.797 0.131 0.046 bt709"},
        {"p3-srgb", "RGB, cicp", Encoding::display_p3(), "0.3127 0.329 0.68 0.32 0.265 0.69 0.15 0.06 srgb"},
        {"p3-dci", "RGB, cicp", Encoding::rgb(White::dci(), Primaries::p3(), Curve::dci(), relative),
         "0.314 0.351 0.68 0.32 0.265 0.69 0.15 0.06 2.6"},
        {"e-srgb", "RGB", Encoding::rgb(White::e(), Primaries::srgb(), Curve::srgb(), relative),
         "0.333333333 0.333333333 0.64 0.33 0.3 0.6 0.15 0.06 srgb"},
        {"own", "RGB", Encoding::rgb(own_white, own_primaries, Curve::srgb(), relative),
         "0.3457 0.3585 0.64 0.33 0.21 0.71 0.15 0.06 srgb"},
        {"srgb-gamma", "RGB", Encoding::rgb(d65, Primaries::srgb(), gamma, relative),
         "0.3127 0.329 0.64 0.33 0.3 0.6 0.15 0.06 2.2"},
        {"own-gamma", "RGB", Encoding::rgb(own_white, own_primaries, gamma, Intent::perceptual),
         "0.3457 0.3585 0.64 0.33 0.21 0.71 0.15 0.06 2.2"},
        {"gray-srgb", "gray", Encoding::gray(d65, Curve::srgb(), relative), "0.3127 0.329 srgb"},
        {"gray-own", "gray", Encoding::gray(own_white, Curve::linear(), Intent::perceptual), "0.3457 0.3585 1"},
        {"gray-dci-gamma", "gray", Encoding::gray(White::dci(), gamma, relative), "0.314 0.351 2.2"},
        {"gray-srgb-adapted", "gray, adapted", Encoding::gray_adapted(d65, Curve::srgb(), relative), "0.3127 0.329 srgb"},
        {"gray-own-adapted", "gray, adapted", Encoding::gray_adapted(own_white, Curve::linear(), Intent::perceptual),
         "0.3457 0.3585 1"},
        {"gray-dci-gamma-adapted", "gray, adapted", Encoding::gray_adapted(White::dci(), gamma, relative), "0.314 0.351 2.2"},
        {"xyb", "XYB", Encoding::xyb(), ""},
        {"xyb-relative", "XYB", Encoding::xyb(relative), ""},
    };
    for (const auto &one : all) {
        const merqyduk::Profile profile = merqyduk::write(one.encoding);
        if (!profile) {
            std::fprintf(stderr, "%s: refused, %s\n", one.name, profile.answer().text());
            return 1;
        }
        const std::string path = std::string(argv[1]) + "/" + one.name + ".icc";
        std::ofstream file(path, std::ios::binary);
        file.write(reinterpret_cast<const char *>(profile.data()), std::streamsize(profile.size()));
        file.close();
        if (!file) {
            std::fprintf(stderr, "%s cannot be written\n", path.c_str());
            return 1;
        }
        std::printf("%s\t%s\t%s\n", one.name, one.kind, one.means);
    }
    return 0;
}
