// Holds the calls of include/merqyduk.hpp against those of include/merqyduk.h, and the texts of all refusals.
#include "merqyduk.hpp"

#include <cstdio>
#include <cstring>
#include <set>
#include <string>

using namespace merqyduk;

namespace {

int tried = 0;
int failed = 0;

void expect(bool ok, const std::string &what) {
    tried++;
    if (!ok) {
        failed++;
        std::printf("FAILED: %s\n", what.c_str());
    }
}

// What a count holds before a call: more than any profile has numbers.
const std::uint32_t held = 77;

// Every way to write the encoding answers and writes what the C call did: its answer, the front of its output, and the count, which is `held` where
// the encoding is refused.
void same(const std::string &name, const Encoding &encoding, std::uint32_t answer, const std::uint8_t *bytes,
          std::uint32_t rounded) {
    const std::size_t length = answer < MERQYDUK_MIN_PROFILE ? 0 : answer;
    const auto holds = [&](const Answer &a, const std::uint8_t *at) {
        return bool(a) == (length > 0) && a.length() == length && a.refusal() == (length > 0 ? 0 : answer) &&
               std::memcmp(at, bytes, length) == 0;
    };
    expect(holds(merqyduk::length(encoding), bytes), name + ": its length before");
    expect(holds(merqyduk::length(encoding, MERQYDUK_MAX_PROFILE), bytes), name + ": its length before, in 1,200 bytes");
    std::uint8_t lent[MERQYDUK_MAX_PROFILE];
    expect(holds(write(encoding, lent, sizeof lent), lent), name + " into a lent output");
    std::uint32_t count = held;
    expect(holds(merqyduk::length(encoding, SIZE_MAX, count), bytes) && count == rounded, name + ": its count before");
    count = held;
    std::memset(lent, 0, sizeof lent);
    expect(holds(write(encoding, lent, sizeof lent, count), lent) && count == rounded, name + " with its count");
    count = held;
    expect(!write(encoding, lent, 100, count) && !merqyduk::length(encoding, 100, count) && count == held,
           name + ": no count in 100 bytes");
    std::array<std::uint8_t, MERQYDUK_MAX_PROFILE> array;
    expect(holds(write(encoding, array), array.data()), name + " into an array");
    std::vector<std::uint8_t> vector(3, 7);
    const Answer into_vector = write(encoding, vector);
    expect(holds(into_vector, vector.data()), name + " into a vector");
    expect(length > 0 ? vector.size() == length : vector == std::vector<std::uint8_t>(3, 7), name + ": the vector");
    const CountedProfile profile = write(encoding);
    expect(bool(profile) == (length > 0) && holds(profile.answer(), profile.data()), name + " by value");
    expect(profile.rounded() == (length > 0 ? rounded : 0), name + ": its count by value");
    expect(profile.size() == length && std::size_t(profile.end() - profile.begin()) == length, name + ": its length");
    const Id zeros{};
    expect(length > 0 ? std::memcmp(profile.id().data(), bytes + 84, 16) == 0 : profile.id() == zeros, name + ": its id");
    expect(std::string(profile.answer().text()) == merqyduk_refusal_text(answer), name + ": its text");
}

const Device devices[] = {Device::none(), Device::of("ACME", "PLT1"), Device::of("PLT1", "ACME"), {0xffffffffu, 0}, {0, 1}};

void encodings() {
    std::uint8_t out[MERQYDUK_MAX_PROFILE];
    const White whites[] = {White::d65(), White::e(), White::dci(), White::own(0.3457f, 0.3585f)};
    const Primaries primaries[] = {Primaries::srgb(), Primaries::bt2100(), Primaries::p3(),
                                   Primaries::own(0.64f, 0.33f, 0.21f, 0.71f, 0.15f, 0.06f)};
    const Curve curves[] = {Curve::bt709(), Curve::linear(), Curve::srgb(), Curve::pq(),
                            Curve::dci(),   Curve::hlg(),    Curve::encoding_gamma(0.45f)};
    // The numbers are those of the job form, which are the places in these lists.
    for (std::uint32_t w = 0; w < 4; w++) {
        for (std::uint32_t c = 0; c < 7; c++) {
            for (std::uint32_t i = 0; i < 4; i++) {
                const Intent intent = static_cast<Intent>(i);
                const std::string name = std::to_string(w) + " " + std::to_string(c) + " " + std::to_string(i);
                std::uint32_t count = held;
                std::uint32_t answer =
                    merqyduk_write_gray_counted(w, 0.3457f, 0.3585f, c, 0.45f, i, out, sizeof out, &count);
                same("gray " + name, Encoding::gray(whites[w], curves[c], intent), answer, out, count);
                for (const Device &d : devices) {
                    answer = merqyduk_write_gray_device(w, 0.3457f, 0.3585f, c, 0.45f, i, d.maker, d.model, out, sizeof out);
                    same("gray of a device " + name, Encoding::gray(whites[w], curves[c], intent, d), answer, out, count);
                }
                for (const Device &d : devices) {
                    count = held;
                    answer = merqyduk_write_gray_adapted(w, 0.3457f, 0.3585f, c, 0.45f, i, 1, d.maker, d.model, out, sizeof out, &count);
                    same("adapted gray " + name, Encoding::gray_adapted(whites[w], curves[c], intent, d), answer, out, count);
                }
                for (std::uint32_t p = 0; p < 4; p++) {
                    count = held;
                    answer = merqyduk_write_rgb_counted(w, 0.3457f, 0.3585f, p, 0.64f, 0.33f, 0.21f, 0.71f, 0.15f,
                                                        0.06f, c, 0.45f, i, out, sizeof out, &count);
                    same("RGB " + std::to_string(p) + " " + name,
                         Encoding::rgb(whites[w], primaries[p], curves[c], intent), answer, out, count);
                    for (const Device &d : devices) {
                        answer = merqyduk_write_rgb_device(w, 0.3457f, 0.3585f, p, 0.64f, 0.33f, 0.21f, 0.71f, 0.15f,
                                                           0.06f, c, 0.45f, i, d.maker, d.model, out, sizeof out);
                        same("RGB of a device " + std::to_string(p) + " " + name,
                             Encoding::rgb(whites[w], primaries[p], curves[c], intent, d), answer, out, count);
                    }
                }
            }
        }
    }
    for (std::uint32_t i = 0; i < 5; i++) {
        std::uint32_t count = held;
        std::uint32_t answer = merqyduk_write_xyb_counted(i, out, sizeof out, &count);
        same("XYB " + std::to_string(i), Encoding::xyb(static_cast<Intent>(i)), answer, out, count);
        for (const Device &d : devices) {
            answer = merqyduk_write_xyb_device(i, d.maker, d.model, out, sizeof out);
            same("XYB of a device " + std::to_string(i), Encoding::xyb(static_cast<Intent>(i), d), answer, out, count);
        }
    }
    // Without a device, and with the mark set in a value, gray is the same. The other kinds do not read the mark.
    const Encoding adapted = Encoding::gray_adapted(White::d65(), Curve::srgb(), Intent::relative);
    for (Encoding encoding : {Encoding::gray(White::d65(), Curve::srgb(), Intent::relative), Encoding::srgb(), Encoding::xyb()}) {
        expect(!encoding.adapted && adapted.adapted, "the mark of an encoding");
        const CountedProfile plain = write(encoding.kind == Encoding::Kind::gray ? adapted : encoding);
        encoding.adapted = true;
        same("the mark in a value", encoding, static_cast<std::uint32_t>(plain.size()), plain.data(), plain.rounded());
    }
    expect(write(adapted).size() == 384, "adapted gray");
    // A kind that is none is refused, the one in front of the first too.
    for (int kind : {-1, 3, 255}) {
        Encoding none = Encoding::srgb();
        none.kind = static_cast<Encoding::Kind>(kind);
        same("kind " + std::to_string(kind), none, MERQYDUK_REFUSED_MEANING, out, held);
    }
    expect(write(Encoding::srgb()).size() == 504, "sRGB");
    expect(write(Encoding::srgb(Intent::relative)).size() == 536, "sRGB Relative");
    expect(write(Encoding::srgb()).rounded() == 24, "the count of sRGB");
    merqyduk_write_rgb(0, 0, 0, 2, 0, 0, 0, 0, 0, 0, 2, 0, 0, out, sizeof out);
    expect(std::memcmp(write(Encoding::display_p3()).data(), out, 500) == 0, "Display P3");
    // Maker and model by their letters stand in the header as they are, bytes above 127 and zeros too.
    const Device device = Device::of("AC\xff\x01", "\0PLT");
    expect(device.maker == 0x4143ff01 && device.model == 0x00504c54, "a device by its letters");
    for (const Encoding &encoding : {Encoding::srgb(Intent::perceptual, device), Encoding::xyb(Intent::perceptual, device),
                                     Encoding::xyb(Intent::relative, device), Encoding::display_p3(Intent::absolute, device)})
        expect(std::memcmp(write(encoding).data() + MERQYDUK_MAKER_OFFSET, "AC\xff\x01\0PLT", 8) == 0, "a device in the header");
    // The curve of a display gamma of 2.2 is the fixed number of 2.2: the last element, 12 bytes from its start on.
    const Profile display = write(Encoding::gray(White::d65(), Curve::display_gamma(2.2f), Intent::relative));
    const std::uint8_t number[] = {0, 2, 0x33, 0x33};
    expect(display && std::memcmp(display.end() - 4, number, 4) == 0, "a display gamma of 2.2");
    std::array<std::uint8_t, 503> small;
    expect(write(Encoding::srgb(), small).refusal() == MERQYDUK_REFUSED_OUTPUT, "503 bytes for sRGB");
    expect(length(Encoding::srgb(), 503).refusal() == MERQYDUK_REFUSED_OUTPUT, "503 bytes for sRGB, told before");
    expect(length(Encoding::srgb(), 504).length() == 504, "504 bytes for sRGB, told before");
}

// The bits are compared: a zero has two.
bool alike(float a, float b) { return std::memcmp(&a, &b, sizeof a) == 0; }

bool alike(const Encoding &a, const Encoding &b) {
    const Primaries &p = a.primaries, &q = b.primaries;
    return a.kind == b.kind && a.white.kind == b.white.kind && alike(a.white.x, b.white.x) &&
           alike(a.white.y, b.white.y) && p.kind == q.kind && alike(p.rx, q.rx) && alike(p.ry, q.ry) &&
           alike(p.gx, q.gx) && alike(p.gy, q.gy) && alike(p.bx, q.bx) && alike(p.by, q.by) &&
           a.curve.kind == b.curve.kind && alike(a.curve.gamma, b.curve.gamma) && a.intent == b.intent &&
           a.device.maker == b.device.maker && a.device.model == b.device.model && a.adapted == b.adapted;
}

// The text is read as the encoding, and leads to its profile.
void typed(const std::string &text, const Encoding &encoding) {
    const Parsed parsed = parse(text.data(), text.size());
    expect(parsed && parsed.refusal == 0, text + " is read");
    expect(alike(parsed.encoding, encoding), text + " has the encoding that was meant");
    const Profile profile = write(parsed.encoding), meant = write(encoding);
    expect(profile.answer().refusal() == meant.answer().refusal() && profile.size() == meant.size() &&
               std::memcmp(profile.data(), meant.data(), meant.size()) == 0,
           text + " has the profile of the encoding");
#if __cplusplus >= 201703L
    expect(alike(parse(std::string_view(text)).encoding, encoding), text + " as a view");
#endif
}

void refused(const std::string &text, std::uint32_t number) {
    const Parsed parsed = parse(text.data(), text.size());
    expect(!parsed && parsed.refusal == number, text + " refused");
    expect(alike(parsed.encoding, Encoding()), text + ": the encoding is all zero");
    expect(std::string(parsed.text()) == merqyduk_refusal_text(number), text + ": the text of its refusal");
}

void texts_of_encodings() {
    const char *const whites[] = {"D65", "EER", "DCI", "0.3457000;-0.0000000"};
    const char *const primaries[] = {"SRG", "202", "DCI", "0.6400000,0.3300000;0.2100000,0.7100000;0.1500000,0.0600000"};
    const char *const curves[] = {"709", "Lin", "SRG", "PeQ", "DCI", "HLG", "g0.4500000"};
    const char *const intents[] = {"Per", "Rel", "Sat", "Abs"};
    for (std::uint32_t i = 0; i < 4; i++) {
        const Intent intent = static_cast<Intent>(i);
        typed(std::string("XYB_") + intents[i], Encoding::xyb(intent));
        for (std::uint32_t w = 0; w < 4; w++)
            for (std::uint32_t c = 0; c < 7; c++) {
                const White white = w == 3 ? White::own(0.3457f, -0.0f) : White{w, 0, 0};
                const Curve curve = c == 6 ? Curve::encoding_gamma(0.45f) : Curve{c, 0};
                const std::string end = std::string("_") + intents[i] + "_" + curves[c];
                typed(std::string("Gra_") + whites[w] + end, Encoding::gray(white, curve, intent));
                for (std::uint32_t p = 0; p < 4; p++) {
                    const bool common = w == 0 && ((p != 1 && p < 3 && c == 2 && i == 0) || (p == 1 && (c == 3 || c == 5) && i == 1));
                    const Primaries own = Primaries::own(0.64f, 0.33f, 0.21f, 0.71f, 0.15f, 0.06f);
                    const std::string text = std::string("RGB_") + whites[w] + "_" + primaries[p] + end;
                    if (common) refused(text, MERQYDUK_REFUSED_TEXT);
                    else typed(text, Encoding::rgb(white, p == 3 ? own : Primaries{p, 0, 0, 0, 0, 0, 0}, curve, intent));
                }
            }
    }
    typed("sRGB", Encoding::srgb());
    typed("DisplayP3", Encoding::display_p3());
    typed("Rec2100PQ", Encoding::rgb(White::d65(), Primaries::bt2100(), Curve::pq(), Intent::relative));
    typed("Rec2100HLG", Encoding::rgb(White::d65(), Primaries::bt2100(), Curve::hlg(), Intent::relative));
    refused("", MERQYDUK_REFUSED_TEXT);
    refused("srgb", MERQYDUK_REFUSED_TEXT);
    refused(std::string("sRGB", 5), MERQYDUK_REFUSED_TEXT);
    refused("Gra_D65_Rel_g0.0000000", MERQYDUK_REFUSED_ZERO_GAMMA);
    refused("Gra_D65_Rel_g-0.0000000", MERQYDUK_REFUSED_ZERO_GAMMA);
    expect(parse(nullptr, 0).refusal == MERQYDUK_REFUSED_TEXT, "no text");
    expect(bool(parse("sRGB and more", 4)), "a part of a text");
#if __cplusplus >= 201703L
    expect(bool(parse("sRGB")) && !parse(std::string("sRGB ")) && !parse(std::string_view()), "texts as views");
#endif
}

void jobs() {
    // One RGB entry, sRGB, and one XYB entry, Relative.
    std::array<std::uint8_t, 44> bytes{};
    bytes[1] = bytes[42] = bytes[43] = 1;
    bytes[36] = 2;
    const Job job(bytes.data(), bytes.size());
    expect(job && job.refusal() == 0 && job.entries() == 2, "a job");
    const Profile first = job.profile(0);
    const Profile srgb = write(Encoding::srgb());
    expect(first && std::vector<std::uint8_t>(first.begin(), first.end()) ==
                        std::vector<std::uint8_t>(srgb.begin(), srgb.end()),
           "its first entry");
    std::uint8_t out[504];
    expect(job.write(0, out, sizeof out).length() == 504 && id(out) == srgb.id(), "its first entry, lent");
    const Profile second = job.profile(1);
    const Profile xyb = write(Encoding::xyb(Intent::relative));
    expect(second.size() == 720 && std::equal(xyb.begin(), xyb.end(), second.begin()), "its second entry");
    expect(!job.profile(2) && job.profile(2).answer().refusal() == 0, "no third entry");
    const Job cut(bytes.data(), 43);
    expect(!cut && cut.refusal() == MERQYDUK_REFUSED_JOB_EARLY && cut.entries() == 0, "a cut job");
    expect(std::string(cut.text()) == merqyduk_refusal_text(41), "its text");
    expect(cut.profile(0).answer().refusal() == MERQYDUK_REFUSED_JOB_EARLY, "an entry of a cut job");
}

void files() {
    const Profile profile = write(Encoding::gray(White::own(0.25f, 0.5f), Curve::display_gamma(2), Intent::saturation,
                                                 Device::of("ACME", "PLT1")));
    const Reading reading = read(profile.data(), profile.size());
    expect(reading && reading.refusal == 0, "a profile read");
    expect(reading.plan.kind == 1 && reading.plan.intent == MERQYDUK_INTENT_SATURATION, "its kind and intent");
    expect(reading.plan.maker == 0x41434d45 && reading.plan.model == 0x504c5431, "its maker and model");
    expect(reading.plan.curve == MERQYDUK_CURVE_GAMMA && reading.plan.gamma == 2 * 65536, "its curve");
    expect(reading.plan.adapted == 0 && reading.plan.white_x == 32768 && reading.plan.white_z == 32768, "its white");
    expect(reading.description() == "Gra_0.2500000;0.5000000_Sat_g0.5000000", "its description");
    const Element curve = find(profile.data(), profile.size(), "kTRC");
    expect(curve && curve.data == profile.end() - 16 && curve.size == 16, "its last element");
    expect(!find(profile.data(), profile.size(), "chad"), "an absent tag");
    const Reading cut = read(profile.data(), profile.size() - 1);
    expect(!cut && cut.refusal == MERQYDUK_REFUSED_SIZE_FIELD && cut.plan.kind == 0, "a cut profile");
    expect(cut.description().empty() && std::string(cut.text()) == merqyduk_refusal_text(22), "its text");
    expect(!find(profile.data(), profile.size() - 1, "kTRC"), "an element of a cut profile");
}

// Gray and adapted gray of the same encoding, and RGB of the same white.
void adapted_files() {
    const White white = White::own(0.25f, 0.5f);
    const Profile plain = write(Encoding::gray(white, Curve::srgb(), Intent::saturation));
    const Profile adapted = write(Encoding::gray_adapted(white, Curve::srgb(), Intent::saturation));
    const Profile rgb = write(Encoding::rgb(white, Primaries::srgb(), Curve::srgb(), Intent::saturation));
    expect(adapted.size() == plain.size() + 56, "its length");
    const Reading reading = read(adapted.data(), adapted.size()), same = read(plain.data(), plain.size()), colors = read(rgb.data(), rgb.size());
    expect(reading && reading.plan.kind == 1 && reading.plan.adapted == 1, "its kind and mark");
    expect(same.plan.adapted == 0 && colors.plan.adapted == 0, "no mark in others");
    expect(reading.plan.white_x == 0 && reading.plan.white_z == 0, "no white of its own");
    expect(std::memcmp(reading.plan.chad, colors.plan.chad, sizeof reading.plan.chad) == 0, "the adaptation of RGB");
    expect(reading.description() == same.description() && reading.plan.intent == same.plan.intent && reading.plan.curve == same.plan.curve,
           "the same plan else");
    const char tags[][5] = {"wtpt", "chad"};
    for (const char(&tag)[5] : tags) {
        const Element its = find(adapted.data(), adapted.size(), tag), of_rgb = find(rgb.data(), rgb.size(), tag);
        expect(its && its.size == of_rgb.size && std::memcmp(its.data, of_rgb.data, its.size) == 0, std::string(tag) + " of RGB");
    }
    expect(!find(plain.data(), plain.size(), "chad"), "no adaptation without the mark");
}

// XYB of each intent: the Perceptual file but for byte 67, three letters of the text, which follow 36 bytes of its element, and the id.
void xyb_files() {
    const char *const names[] = {"Per", "Rel", "Sat", "Abs"};
    const Profile perceptual = write(Encoding::xyb());
    for (std::uint32_t i = 0; i < 4; i++) {
        const std::string name = std::string("XYB_") + names[i];
        const CountedProfile profile = write(Encoding::xyb(static_cast<Intent>(i)));
        expect(profile.size() == 720 && profile.rounded() == 30, name + ": its length and count");
        expect((profile.id() == perceptual.id()) == (i == 0), name + ": its id");
        const Element text = find(profile.data(), profile.size(), "desc");
        std::vector<std::uint8_t> patched(perceptual.begin(), perceptual.end());
        patched[67] = static_cast<std::uint8_t>(i);
        for (std::ptrdiff_t at = 0; at < 3; at++)
            patched[std::size_t(text.data - profile.data() + 37 + 2 * at)] = static_cast<std::uint8_t>(names[i][at]);
        std::copy_n(profile.data() + MERQYDUK_ID_OFFSET, MERQYDUK_ID_SIZE, patched.begin() + MERQYDUK_ID_OFFSET);
        expect(std::equal(patched.begin(), patched.end(), profile.begin()), name + " is the Perceptual file else");
        const Reading reading = read(profile.data(), profile.size());
        expect(reading && reading.plan.kind == 3 && reading.plan.intent == i, name + ": its kind and intent");
        expect(reading.description().empty(), name + ": its plan holds no text");
        patched[67] = static_cast<std::uint8_t>(i ^ 1);
        expect(read(patched.data(), patched.size()).refusal == MERQYDUK_REFUSED_ELEMENTS, name + " under another intent");
        patched[67] = static_cast<std::uint8_t>(i + 4);
        expect(read(patched.data(), patched.size()).refusal == MERQYDUK_REFUSED_INTENT_FIELD, name + " under a number that is no intent");
    }
}

// The file with sixteen zero bytes in place of its id.
std::vector<std::uint8_t> without_id(const Profile &profile) {
    std::vector<std::uint8_t> file(profile.begin(), profile.end());
    std::fill_n(file.begin() + MERQYDUK_ID_OFFSET, MERQYDUK_ID_SIZE, std::uint8_t(0));
    return file;
}

void files_without_id() {
    for (const Encoding &encoding : {Encoding::srgb(), Encoding::xyb(), Encoding::xyb(Intent::relative), Encoding::xyb(Intent::saturation),
                                     Encoding::xyb(Intent::absolute), Encoding::srgb(Intent::relative, Device::of("ACME", "PLT1")),
                                     Encoding::gray(White::d65(), Curve::srgb(), Intent::relative),
                                     Encoding::gray_adapted(White::d65(), Curve::srgb(), Intent::relative)}) {
        const Profile profile = write(encoding);
        std::vector<std::uint8_t> file = without_id(profile);
        const Reading reading = read(file.data(), file.size());
        Reading written = read(profile.data(), profile.size());
        expect(reading && written && reading.plan.id_not_computed == 1 && written.plan.id_not_computed == 0, "a mark where there is no id");
        written.plan.id_not_computed = 1;
        expect(std::memcmp(&reading.plan, &written.plan, sizeof reading.plan) == 0, "the same plan else");
        expect(id(file.data()) == Id{} && profile.id() != Id{}, "zeros in place of the id");
        const Element found = find(file.data(), file.size(), "desc"), same = find(profile.data(), profile.size(), "desc");
        expect(found && found.size == same.size && found.data - file.data() == same.data - profile.data(), "an element of a file without an id");
        file[MERQYDUK_ID_OFFSET + 5] = 1;
        const Reading wrong = read(file.data(), file.size());
        expect(!wrong && wrong.refusal == MERQYDUK_REFUSED_ID && wrong.plan.kind == 0, "another id");
        expect(!find(file.data(), file.size(), "desc"), "an element of a file with another id");
    }
}

// Both ways to call, lent and into a vector, answer and write what the C call does.
void puts(const std::uint8_t *file, std::size_t file_len, std::size_t size) {
    const std::string name = std::to_string(file_len) + " bytes in segments of " + std::to_string(size);
    std::uint8_t out[MERQYDUK_MAX_SEGMENTS_LENGTH], lent[MERQYDUK_MAX_SEGMENTS_LENGTH];
    const std::uint32_t answer = merqyduk_write_segments(file, file_len, size, out, sizeof out);
    const std::size_t length = answer < MERQYDUK_MIN_PROFILE ? 0 : answer;
    const Answer into_lent = write_segments(file, file_len, size, lent, sizeof lent);
    expect(bool(into_lent) == (length > 0) && into_lent.length() == length &&
               into_lent.refusal() == (length > 0 ? 0 : answer),
           name + ": its answer");
    expect(std::memcmp(lent, out, length) == 0, name + ": its bytes");
    std::vector<std::uint8_t> vector(3, 7);
    const Answer into_vector = write_segments(file, file_len, size, vector);
    expect(into_vector.length() == length && into_vector.refusal() == into_lent.refusal(), name + " into a vector");
    expect(length > 0 ? vector == std::vector<std::uint8_t>(out, out + length) : vector == std::vector<std::uint8_t>(3, 7),
           name + ": the vector");
    expect(std::string(into_lent.text()) == merqyduk_refusal_text(answer), name + ": its text");
    if (length == 0) return;
    expect(write_segments(file, file_len, size, lent, length - 1).refusal() == MERQYDUK_REFUSED_SEGMENT_OUTPUT,
           name + " in a byte less");
    std::uint8_t back[MERQYDUK_MAX_FILE];
    expect(join_segments(out, length, back, sizeof back).length() == file_len, name + " joined");
    expect(std::memcmp(back, file, file_len) == 0, name + " has the file's bytes");
    expect(join_segments(out, length, vector).length() == file_len, name + " joined into a vector");
    expect(vector == std::vector<std::uint8_t>(file, file + file_len), name + ": the vector of the file");
    expect(join_segments(out, length, back, file_len - 1).refusal() == MERQYDUK_REFUSED_SEGMENT_OUTPUT,
           name + " joined in a byte less");
}

// What is refused when it is joined leaves the vector unchanged. More data than a file has is the reader's matter, and not 55.
void refused_join(const std::string &name, const std::vector<std::uint8_t> &row, std::uint32_t number) {
    std::vector<std::uint8_t> vector(3, 7);
    const Answer answer = join_segments(row.data(), row.size(), vector);
    expect(!answer && answer.length() == 0 && answer.refusal() == number, name + " refused");
    expect(vector == std::vector<std::uint8_t>(3, 7), name + ": the vector is unchanged");
    expect(std::string(answer.text()) == merqyduk_refusal_text(number), name + ": the text of its refusal");
}

void segments() {
    const Profile profiles[] = {write(Encoding::srgb()), write(Encoding::xyb()),
                                write(Encoding::gray(White::d65(), Curve::srgb(), Intent::relative)),
                                write(Encoding::gray_adapted(White::d65(), Curve::srgb(), Intent::relative)),
                                write(Encoding::xyb(Intent::perceptual, Device::of("ACME", "PLT1"))), write(Encoding::xyb(Intent::relative))};
    for (const Profile &profile : profiles) {
        for (std::size_t size : {std::size_t(0), std::size_t(1), std::size_t(3), profile.size() / 3, profile.size(),
                                 std::size_t(MERQYDUK_MAX_SEGMENT_DATA), std::size_t(65520), SIZE_MAX})
            puts(profile.data(), profile.size(), size);
        puts(profile.data(), profile.size() - 1, 100);
        const std::vector<std::uint8_t> file = without_id(profile);
        puts(file.data(), file.size(), profile.size() / 3);
    }
    puts(nullptr, 0, 0);
    // One segment with 3,000 bytes of data: a header and size field of sRGB's, and zeros.
    std::vector<std::uint8_t> row;
    write_segments(profiles[0].data(), profiles[0].size(), MERQYDUK_MAX_SEGMENT_DATA, row);
    row.resize(MERQYDUK_SEGMENT_FRONT + 3000);
    row[2] = 3016 >> 8;
    row[3] = 3016 & 255;
    refused_join("long data", row, MERQYDUK_REFUSED_SIZE_FIELD);
    row[MERQYDUK_SEGMENT_FRONT + 2] = 3000 >> 8;
    row[MERQYDUK_SEGMENT_FRONT + 3] = 3000 & 255;
    refused_join("long data that says so", row, MERQYDUK_REFUSED_TAG_TABLE);
    row.pop_back();
    refused_join("a cut segment", row, MERQYDUK_REFUSED_SEGMENTS);
    refused_join("no segment", {}, MERQYDUK_REFUSED_SEGMENTS);
}

// The refusals of 01 and 02 have texts of their own, and no other number has one: not 2, which no call answers since order 8 of 02.
void texts() {
    const std::string other = merqyduk_refusal_text(0xffffffffu);
    std::set<std::string> seen{other};
    int named = 0;
    for (std::uint32_t n = 0; n <= 1300; n++) {
        const bool known = (n <= 9 && n != 2) || (n >= 21 && n <= 28) || (n >= 41 && n <= 43) || (n >= 51 && n <= 55);
        const std::string text = merqyduk_refusal_text(n);
        expect(known == (text != other), "the text of " + std::to_string(n));
        if (known && seen.insert(text).second) named++;
    }
    expect(named == 25, "texts that differ");
    expect(std::to_string(MERQYDUK_VERSION_MAJOR) + "." + std::to_string(MERQYDUK_VERSION_MINOR) + "." +
                   std::to_string(MERQYDUK_VERSION_PATCH) ==
               MERQYDUK_VERSION_STRING,
           "the version");
}

} // namespace

int main() {
    encodings();
    texts_of_encodings();
    jobs();
    files();
    adapted_files();
    xyb_files();
    files_without_id();
    segments();
    texts();
    std::printf("merqyduk.hpp: %d of %d\n", tried - failed, tried);
    return failed == 0 ? 0 : 1;
}
