// Profiles into JPEG files and out of them by the two calls on segments, for run.sh.
//
//    segments profiles FOLDER     writes gray.icc, gray-adapted.icc, rgb.icc, xyb.icc and xyb-relative.icc
//    segments picture gray|rgb    prints a picture as PGM or PPM
//    segments long PROFILE LENGTH prints the profile with its own bytes again and again behind it, and with its size field right: what
//                                 other programs take for a profile and the library did not write
//    segments put PROFILE SIZE PLACE ORDER JPEG
//                                 prints the JPEG file with the profile in segments of SIZE bytes of data. PLACE is start, right after
//                                 FF D8; app0, after the APP0 segment; or apart, there too with a comment between each two. ORDER is
//                                 forward or reversed
//    segments take JPEG           joins the segments of the JPEG file and prints the profile. Says their number on standard error, and
//                                 the refusal where they are refused; then the status is 1
#include <merqyduk.hpp>

#include <algorithm>
#include <cstdio>
#include <cstdlib>
#include <cstring>
#include <fstream>
#include <iterator>
#include <string>
#include <vector>

using Bytes = std::vector<std::uint8_t>;

[[noreturn]] static void fail(const std::string &why) {
    std::fprintf(stderr, "segments: %s\n", why.c_str());
    std::exit(2);
}

static Bytes load(const std::string &path) {
    std::ifstream file(path, std::ios::binary);
    if (!file) fail(path + " cannot be read");
    return Bytes(std::istreambuf_iterator<char>(file), std::istreambuf_iterator<char>());
}

static void print(const Bytes &bytes) {
    if (std::fwrite(bytes.data(), 1, bytes.size(), stdout) != bytes.size() || std::fflush(stdout) != 0)
        fail("standard output cannot be written");
}

static void append(Bytes &to, const Bytes &bytes) { to.insert(to.end(), bytes.begin(), bytes.end()); }

static void profiles(const std::string &folder) {
    using namespace merqyduk;
    const struct {
        const char *name;
        Encoding encoding;
    } all[] = {{"gray", Encoding::gray(White::d65(), Curve::srgb(), Intent::relative)},
               {"gray-adapted", Encoding::gray_adapted(White::d65(), Curve::srgb(), Intent::relative)},
               {"rgb", Encoding::rgb(White::own(0.3457f, 0.3585f), Primaries::own(0.64f, 0.33f, 0.21f, 0.71f, 0.15f, 0.06f),
                                     Curve::display_gamma(2.2f), Intent::perceptual)},
               {"xyb", Encoding::xyb()},
               {"xyb-relative", Encoding::xyb(Intent::relative)}};
    for (const auto &one : all) {
        const Profile profile = write(one.encoding);
        if (!profile) fail(std::string(one.name) + " is refused: " + profile.answer().text());
        std::ofstream file(folder + "/" + one.name + ".icc", std::ios::binary);
        file.write(reinterpret_cast<const char *>(profile.data()), std::streamsize(profile.size()));
        file.close();
        if (!file) fail(folder + "/" + one.name + ".icc cannot be written");
    }
}

static void picture(bool gray) {
    std::printf("%s\n64 48\n255\n", gray ? "P5" : "P6");
    Bytes pixels;
    for (int y = 0; y < 48; y++)
        for (int x = 0; x < 64; x++) {
            pixels.push_back(static_cast<std::uint8_t>(4 * x));
            if (gray) continue;
            pixels.push_back(static_cast<std::uint8_t>(5 * y));
            pixels.push_back(static_cast<std::uint8_t>(2 * (x + y)));
        }
    print(pixels);
}

static Bytes lengthened(const Bytes &profile, std::size_t length) {
    if (profile.size() < 132 || length > 0xffffffffu) fail("no profile, or a length without a size field");
    Bytes made;
    while (made.size() < length) append(made, profile);
    made.resize(length);
    for (int i = 0; i < 4; i++) made[std::size_t(i)] = static_cast<std::uint8_t>(length >> (24 - 8 * i));
    return made;
}

// The segments of a JPEG file up to its picture, each from its marker on: FF, a byte, a length that counts itself, and as much. Fill bytes,
// FF before a marker, are left out.
static std::vector<Bytes> headers(const Bytes &jpeg) {
    if (jpeg.size() < 2 || jpeg[0] != 0xff || jpeg[1] != 0xd8) fail("not a JPEG file");
    std::vector<Bytes> all;
    for (std::size_t at = 2;;) {
        while (at + 1 < jpeg.size() && jpeg[at] == 0xff && jpeg[at + 1] == 0xff) at++;
        if (jpeg.size() - at < 4 || jpeg[at] != 0xff) fail("the JPEG file has no picture");
        if (jpeg[at + 1] == 0xda) return all;
        const std::size_t length = std::size_t(jpeg[at + 2]) << 8 | jpeg[at + 3];
        if (length < 2 || length > jpeg.size() - at - 2) fail("a segment of the JPEG file passes its end");
        all.emplace_back(jpeg.begin() + std::ptrdiff_t(at), jpeg.begin() + std::ptrdiff_t(at + 2 + length));
        at += 2 + length;
    }
}

// Of all segments those of a profile: APP2 with the name.
static std::vector<Bytes> of_profile(const std::vector<Bytes> &all) {
    std::vector<Bytes> found;
    for (const Bytes &one : all)
        if (one[1] == 0xe2 && one.size() >= 16 && std::memcmp(&one[4], "ICC_PROFILE", 12) == 0) found.push_back(one);
    return found;
}

static Bytes with_profile(const Bytes &profile, std::size_t size, const std::string &place, bool reversed, const Bytes &jpeg) {
    Bytes row;
    const merqyduk::Answer answer = merqyduk::write_segments(profile.data(), profile.size(), size, row);
    if (!answer) fail(std::string("not put into segments: ") + answer.text());
    // The same walk as over a JPEG file, with two bytes in front and a marker of a picture behind.
    Bytes around = {0xff, 0xd8};
    append(around, row);
    append(around, {0xff, 0xda, 0, 0});
    std::vector<Bytes> parts = of_profile(headers(around));
    if (reversed) std::reverse(parts.begin(), parts.end());
    std::size_t at = 2;
    if (place != "start") {
        const std::vector<Bytes> all = headers(jpeg);
        if (all.empty() || all[0][1] != 0xe0) fail("the JPEG file does not begin with APP0");
        at += all[0].size();
    }
    Bytes made(jpeg.begin(), jpeg.begin() + std::ptrdiff_t(at));
    for (const Bytes &part : parts) {
        append(made, part);
        if (place == "apart") append(made, {0xff, 0xfe, 0, 9, 'b', 'e', 't', 'w', 'e', 'e', 'n'});
    }
    made.insert(made.end(), jpeg.begin() + std::ptrdiff_t(at), jpeg.end());
    return made;
}

static int take(const Bytes &jpeg) {
    Bytes row, profile;
    const std::vector<Bytes> parts = of_profile(headers(jpeg));
    for (const Bytes &part : parts) append(row, part);
    const merqyduk::Answer answer = merqyduk::join_segments(row.data(), row.size(), profile);
    if (answer) {
        std::fprintf(stderr, "segments %zu\n", parts.size());
        print(profile);
        return 0;
    }
    std::fprintf(stderr, "segments %zu refused %u: %s\n", parts.size(), unsigned(answer.refusal()), answer.text());
    return 1;
}

int main(int argc, char **argv) {
    const std::vector<std::string> words(argv + 1, argv + argc);
    const std::string what = words.empty() ? "" : words[0];
    const std::size_t n = words.size();
    if (what == "profiles" && n == 2) profiles(words[1]);
    else if (what == "picture" && n == 2 && (words[1] == "gray" || words[1] == "rgb")) picture(words[1] == "gray");
    else if (what == "long" && n == 3) print(lengthened(load(words[1]), std::strtoul(words[2].c_str(), nullptr, 10)));
    else if (what == "put" && n == 6 && (words[3] == "start" || words[3] == "app0" || words[3] == "apart") &&
             (words[4] == "forward" || words[4] == "reversed"))
        print(with_profile(load(words[1]), std::strtoul(words[2].c_str(), nullptr, 10), words[3], words[4] == "reversed",
                           load(words[5])));
    else if (what == "take" && n == 2) return take(load(words[1]));
    else fail("profiles FOLDER, picture gray|rgb, long PROFILE LENGTH, put PROFILE SIZE PLACE ORDER JPEG, or take JPEG");
    return 0;
}
