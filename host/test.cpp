// Calls the entries of include/merqyduk.h as a board would: the examples of 01, outputs of every length up to the profile's, and the length told
// without an output for each of them; outputs, jobs, files and texts that end at a page that may not be touched; numbers without meaning, and jobs
// that are cut or have bytes left. Reads each profile back, finds its elements, and has files refused by each number. Puts files into segments of many
// sizes and joins them, in order and out of it, whole and damaged. Types every named encoding, numbers of one's own, and texts that are no
// description. Makes each call also with a count of numbers that were rounded, and counts them once more by their floats. Writes each profile with
// other makers and models, which change their own bytes and the id alone, and reads it back. Reads each also with zeros in place of the id, which are
// accepted, and with other bytes there, which are not. Holds XYB of each intent against the Perceptual file with that intent, its text and its id put
// in, and gray adapted to D50 against files laid out here from parts: of the gray file that is not adapted and an RGB file of the same white, and of
// numbers and letters made here. Writes the accepted profiles into the folder that it is given.
#include "merqyduk.h"

#include <sys/mman.h>
#include <unistd.h>

#include <algorithm>
#include <array>
#include <cmath>
#include <cstddef>
#include <cstdio>
#include <cstdlib>
#include <cstring>
#include <functional>
#include <limits>
#include <map>
#include <memory>
#include <regex>
#include <string>
#include <vector>

namespace {

using Bytes = std::vector<uint8_t>;

// The maker of a device and its model, four bytes each as one number.
struct Device {
    uint32_t maker, model;
};

// A call that writes, and, for an encoding, the one that answers the same without an output; then both with a count, and how many fixed numbers
// of the profile are looked at for it; the one that writes with maker and model, and, where there is one, that with both and a count.
struct Call {
    std::function<uint32_t(uint8_t *, size_t)> write;
    std::function<uint32_t(size_t)> length;
    std::function<uint32_t(uint8_t *, size_t, uint32_t *)> write_counted;
    std::function<uint32_t(size_t, uint32_t *)> length_counted;
    uint32_t numbers;
    std::function<uint32_t(Device, uint8_t *, size_t)> write_device;
    std::function<uint32_t(Device, uint8_t *, size_t, uint32_t *)> write_device_counted = nullptr;
    uint32_t operator()(uint8_t *out, size_t n) const { return write(out, n); }
};

int tried = 0;
int failed = 0;

void expect(bool ok, const std::string &what) {
    tried++;
    if (!ok) {
        failed++;
        std::printf("FAILED: %s\n", what.c_str());
    }
}

Call gray(uint32_t white, float wx, float wy, uint32_t curve, float gamma, uint32_t intent) {
    return {[=](uint8_t *out, size_t n) { return merqyduk_write_gray(white, wx, wy, curve, gamma, intent, out, n); },
            [=](size_t n) { return merqyduk_length_gray(white, wx, wy, curve, gamma, intent, n); },
            [=](uint8_t *out, size_t n, uint32_t *rounded) {
                return merqyduk_write_gray_counted(white, wx, wy, curve, gamma, intent, out, n, rounded);
            },
            [=](size_t n, uint32_t *rounded) {
                return merqyduk_length_gray_counted(white, wx, wy, curve, gamma, intent, n, rounded);
            },
            curve == MERQYDUK_CURVE_GAMMA ? 4u : 8u,
            [=](Device device, uint8_t *out, size_t n) {
                return merqyduk_write_gray_device(white, wx, wy, curve, gamma, intent, device.maker, device.model, out, n);
            }};
}

// By the calls that take the mark, which may be any number.
Call adapted_gray(uint32_t adapted, uint32_t white, float wx, float wy, uint32_t curve, float gamma, uint32_t intent) {
    const auto write = [=](Device device, uint8_t *out, size_t n, uint32_t *rounded) {
        return merqyduk_write_gray_adapted(white, wx, wy, curve, gamma, intent, adapted, device.maker, device.model, out, n, rounded);
    };
    const auto length = [=](size_t n, uint32_t *rounded) {
        return merqyduk_length_gray_adapted(white, wx, wy, curve, gamma, intent, adapted, n, rounded);
    };
    const auto write_device = [=](Device device, uint8_t *out, size_t n) {
        uint32_t rounded;
        return write(device, out, n, &rounded);
    };
    const auto length_alone = [=](size_t n) {
        uint32_t rounded;
        return length(n, &rounded);
    };
    return {[=](uint8_t *out, size_t n) { return write_device({0, 0}, out, n); },
            length_alone,
            [=](uint8_t *out, size_t n, uint32_t *rounded) { return write({0, 0}, out, n, rounded); },
            length,
            (adapted == 1 ? 12u : 3u) + (curve == MERQYDUK_CURVE_GAMMA ? 1u : 5u),
            write_device,
            write};
}

struct Primaries {
    float rx, ry, gx, gy, bx, by;
};

Call rgb(uint32_t white, float wx, float wy, uint32_t primaries, Primaries p, uint32_t curve, float gamma,
         uint32_t intent) {
    return {[=](uint8_t *out, size_t n) {
                return merqyduk_write_rgb(white, wx, wy, primaries, p.rx, p.ry, p.gx, p.gy, p.bx, p.by, curve, gamma,
                                          intent, out, n);
            },
            [=](size_t n) {
                return merqyduk_length_rgb(white, wx, wy, primaries, p.rx, p.ry, p.gx, p.gy, p.bx, p.by, curve, gamma,
                                           intent, n);
            },
            [=](uint8_t *out, size_t n, uint32_t *rounded) {
                return merqyduk_write_rgb_counted(white, wx, wy, primaries, p.rx, p.ry, p.gx, p.gy, p.bx, p.by, curve,
                                                  gamma, intent, out, n, rounded);
            },
            [=](size_t n, uint32_t *rounded) {
                return merqyduk_length_rgb_counted(white, wx, wy, primaries, p.rx, p.ry, p.gx, p.gy, p.bx, p.by, curve,
                                                   gamma, intent, n, rounded);
            },
            curve == MERQYDUK_CURVE_GAMMA ? 22u : 26u,
            [=](Device device, uint8_t *out, size_t n) {
                return merqyduk_write_rgb_device(white, wx, wy, primaries, p.rx, p.ry, p.gx, p.gy, p.bx, p.by, curve,
                                                 gamma, intent, device.maker, device.model, out, n);
            }};
}

Call xyb(uint32_t intent) {
    return {[=](uint8_t *out, size_t n) { return merqyduk_write_xyb(intent, out, n); },
            [=](size_t n) { return merqyduk_length_xyb(intent, n); },
            [=](uint8_t *out, size_t n, uint32_t *rounded) { return merqyduk_write_xyb_counted(intent, out, n, rounded); },
            [=](size_t n, uint32_t *rounded) { return merqyduk_length_xyb_counted(intent, n, rounded); }, 45,
            [=](Device device, uint8_t *out, size_t n) {
                return merqyduk_write_xyb_device(intent, device.maker, device.model, out, n);
            }};
}

// An output of n bytes between two pages that may not be touched: it ends where the second begins, or starts where the first ends.
class Guarded {
  public:
    Guarded(size_t n, bool at_end) : size_(n) {
        const size_t page = static_cast<size_t>(sysconf(_SC_PAGESIZE)), between = (n / page + 1) * page;
        mapped_ = between + 2 * page;
        base_ = static_cast<uint8_t *>(
            mmap(nullptr, mapped_, PROT_READ | PROT_WRITE, MAP_PRIVATE | MAP_ANONYMOUS, -1, 0));
        if (base_ == MAP_FAILED || mprotect(base_, page, PROT_NONE) != 0 ||
            mprotect(base_ + page + between, page, PROT_NONE) != 0) {
            std::perror("mmap");
            std::exit(2);
        }
        out_ = at_end ? base_ + page + between - n : base_ + page;
        for (size_t i = 0; i < n; i++) out_[i] = fill(i);
    }
    ~Guarded() { munmap(base_, mapped_); }
    Guarded(const Guarded &) = delete;
    Guarded &operator=(const Guarded &) = delete;

    static uint8_t fill(size_t i) { return static_cast<uint8_t>(i * 131 + 17); }
    uint8_t *data() { return out_; }
    bool unchanged_from(size_t at) const {
        for (size_t i = at; i < size_; i++)
            if (out_[i] != fill(i)) return false;
        return true;
    }

  private:
    size_t size_, mapped_;
    uint8_t *base_, *out_;
};

// The bytes between two such pages.
std::shared_ptr<Guarded> guarded(const Bytes &bytes, bool at_end) {
    auto kept = std::make_shared<Guarded>(bytes.size(), at_end);
    std::copy(bytes.begin(), bytes.end(), kept->data());
    return kept;
}

// ---- files changed

Bytes with(Bytes bytes, size_t at, uint8_t byte) {
    bytes[at] = byte;
    return bytes;
}

// With one bit changed.
Bytes with_bit(Bytes bytes, size_t bit) {
    bytes[bit / 8] ^= uint8_t(1 << bit % 8);
    return bytes;
}

Bytes with_number(Bytes bytes, size_t at, int32_t number) {
    for (size_t i = 0; i < 4; i++) bytes[at + i] = uint8_t(uint32_t(number) >> (24 - 8 * i));
    return bytes;
}

// A block of MD5, by RFC 1321.
void md5_block(const uint8_t *block, uint32_t state[4]) {
    const uint32_t turns[4][4] = {{7, 12, 17, 22}, {5, 9, 14, 20}, {4, 11, 16, 23}, {6, 10, 15, 21}};
    uint32_t a = state[0], b = state[1], c = state[2], d = state[3];
    for (uint32_t i = 0; i < 64; i++) {
        const uint32_t mixed[4] = {(b & c) | (~b & d), (d & b) | (~d & c), b ^ c ^ d, c ^ (b | ~d)};
        const uint32_t places[4] = {i, 5 * i + 1, 3 * i + 5, 7 * i};
        const uint8_t *at = block + 4 * (places[i / 16] % 16);
        const uint32_t sine = uint32_t(std::floor(std::fabs(std::sin(i + 1.0)) * 4294967296.0));
        const uint32_t sum = a + mixed[i / 16] + sine +
                             (at[0] | uint32_t(at[1]) << 8 | uint32_t(at[2]) << 16 | uint32_t(at[3]) << 24);
        const uint32_t turn = turns[i / 16][i % 4];
        a = d;
        d = c;
        c = b;
        b += sum << turn | sum >> (32 - turn);
    }
    state[0] += a;
    state[1] += b;
    state[2] += c;
    state[3] += d;
}

// The file with its right id.
Bytes with_id(Bytes f) {
    Bytes hashed = f;
    for (size_t i = 44; i < 100; i++)
        if (i < 48 || (i >= 64 && i < 68) || i >= 84) hashed[i] = 0;
    const uint64_t bits = 8 * uint64_t(hashed.size());
    hashed.push_back(128);
    while (hashed.size() % 64 != 56) hashed.push_back(0);
    for (int i = 0; i < 8; i++) hashed.push_back(uint8_t(bits >> (8 * i)));
    uint32_t state[4] = {0x67452301, 0xefcdab89, 0x98badcfe, 0x10325476};
    for (size_t at = 0; at < hashed.size(); at += 64) md5_block(&hashed[at], state);
    for (size_t i = 0; i < 16; i++) f[84 + i] = uint8_t(state[i / 4] >> (8 * (i % 4)));
    return f;
}

// The file with sixteen zero bytes in place of its id.
Bytes without_id(Bytes f) {
    std::fill(f.begin() + 84, f.begin() + 100, 0);
    return f;
}

// A bit of the id, another each time.
size_t next_id_bit() {
    static size_t turn = 0;
    return 8 * 84 + turn++ % 128;
}

// ---- maker and model

static_assert(MERQYDUK_MAKER_OFFSET == 48 && MERQYDUK_MODEL_OFFSET == 52, "where maker and model stand");

const Device acme = {0x41434d45, 0x504c5431}; // the letters ACME and PLT1

// Zeros, ones in one or both of the two, letters, these exchanged, the names of tags, and each bit alone.
std::vector<Device> all_devices() {
    const uint32_t ones = 0xffffffffu;
    std::vector<Device> all = {{0, 0}, {ones, 0}, {0, ones}, {ones, ones}, acme, {acme.model, acme.maker}, {0x64657363, 0x77747074}};
    for (int bit = 0; bit < 32; bit++) all.insert(all.end(), {{1u << bit, 0}, {0, 1u << bit}});
    return all;
}

const std::vector<Device> devices = all_devices();

// One of them, another each time.
Device next_device() {
    static size_t turn = 0;
    return devices[turn++ % devices.size()];
}

// The file with this maker and model, and the id that it then has.
Bytes with_device(const Bytes &f, Device device) {
    return with_id(with_number(with_number(f, 48, int32_t(device.maker)), 52, int32_t(device.model)));
}

// What a call with maker and model leaves in an output, where the one without them answers so and leaves these bytes. With zeros it is the same.
Bytes left_with(Bytes left, uint32_t answer, Device device) {
    if (answer < MERQYDUK_MIN_PROFILE || (device.maker == 0 && device.model == 0)) return left;
    const Bytes profile = with_device(Bytes(left.begin(), left.begin() + answer), device);
    std::copy(profile.begin(), profile.end(), left.begin());
    return left;
}

// ---- profiles written

Call entry(const Bytes &job, size_t i) {
    auto kept = guarded(job, true);
    return {[=, n = job.size()](uint8_t *out, size_t out_len) {
                return merqyduk_job_profile(kept->data(), n, i, out, out_len);
            },
            nullptr, nullptr, nullptr, 0, nullptr};
}

// How many numbers of an accepted encoding were rounded, as it is told without an output.
uint32_t rounded(const Call &call) {
    uint32_t count = 0;
    call.length_counted(SIZE_MAX, &count);
    return count;
}

// A counted call answers as the other does. On a refusal the number that it is lent, another one each time, is unchanged; else it is the count,
// which all calls for the same profile have in common. What stands beside it is not touched.
void has_count(const std::string &name, uint32_t answer, const Call &call, const std::function<uint32_t(uint32_t *)> &counted) {
    static uint32_t held = 1;
    held = held * 1664525u + 1013904223u;
    uint32_t lent[3] = {held, held, held};
    expect(counted(&lent[1]) == answer, name + ", counted, answered " + std::to_string(answer));
    expect(lent[0] == held && lent[2] == held, name + " leaves what is beside the count unchanged");
    if (answer < MERQYDUK_MIN_PROFILE) {
        expect(lent[1] == held, name + " refused leaves the count unchanged");
    } else {
        expect(lent[1] == rounded(call), name + " has the same count each time");
        expect(lent[1] <= call.numbers, name + " has a count of at most " + std::to_string(call.numbers));
    }
}

// The length that is told for such an output, or the refusal.
void tells(const std::string &name, uint32_t answer, size_t capacity, const Call &call) {
    if (!call.length) return;
    expect(call.length(capacity) == answer, name + " told " + std::to_string(answer) + " at " + std::to_string(capacity));
    has_count(name + " told", answer, call, [&](uint32_t *count) { return call.length_counted(capacity, count); });
}

// The counted call leaves in an output of n bytes of its own what the other call left in its one.
void same_counted(const std::string &name, uint32_t answer, const Call &call, const uint8_t *left, size_t n, bool at_end) {
    if (!call.write_counted) return;
    Guarded out(n, at_end);
    has_count(name, answer, call, [&](uint32_t *count) { return call.write_counted(out.data(), n, count); });
    expect(std::equal(left, left + n, out.data()), name + ", counted, leaves the same output");
}

// The call with maker and model answers the same. What it leaves in an output of its own differs by these and the id alone; so with a count.
void same_device(const std::string &name, uint32_t answer, const Call &call, Device device, const uint8_t *left, size_t n, bool at_end) {
    Guarded out(n, at_end);
    expect(call.write_device(device, out.data(), n) == answer, name + " with maker and model answered " + std::to_string(answer));
    const Bytes expected = left_with(Bytes(left, left + n), answer, device);
    expect(std::equal(expected.begin(), expected.end(), out.data()), name + " with maker and model leaves the same output else");
    if (!call.write_device_counted) return;
    Guarded counted(n, at_end);
    has_count(name + " with maker and model", answer, call,
              [&](uint32_t *count) { return call.write_device_counted(device, counted.data(), n, count); });
    expect(std::equal(expected.begin(), expected.end(), counted.data()), name + " with maker and model, counted, leaves the same output else");
}

// The other calls that write the encoding: with a count, and with maker and model, zeros and others each time.
void same_by_others(const std::string &name, uint32_t answer, const Call &call, const uint8_t *left, size_t n, bool at_end) {
    same_counted(name, answer, call, left, n, at_end);
    if (!call.write_device) return;
    for (const Device &device : {Device{0, 0}, next_device()}) same_device(name, answer, call, device, left, n, at_end);
}

void with_no_output(const std::string &name, uint32_t number, const Call &call) {
    expect(call(nullptr, 0) == number, name + " with no output");
    if (call.write_counted)
        has_count(name + " with no output", number, call, [&](uint32_t *count) { return call.write_counted(nullptr, 0, count); });
    if (call.write_device)
        expect(call.write_device(next_device(), nullptr, 0) == number, name + " with maker and model and no output");
}

void refuses(const std::string &name, uint32_t number, const Call &call) {
    for (size_t n : {size_t(0), size_t(1), size_t(503), size_t(1200), size_t(4096)}) {
        Guarded out(n, true);
        expect(call(out.data(), n) == number, name + " refused " + std::to_string(number));
        expect(out.unchanged_from(0), name + " leaves the output unchanged");
        same_by_others(name, number, call, out.data(), n, true);
        tells(name, number, n, call);
    }
    with_no_output(name, number, call);
    tells(name, number, SIZE_MAX, call);
}

// The profile, after every shorter output was refused with 9 and left unchanged.
std::vector<uint8_t> writes(const std::string &name, uint32_t length, const Call &call) {
    with_no_output(name, 9, call);
    for (size_t n = 0; n < length; n++) {
        Guarded out(n, n % 2 == 0);
        expect(call(out.data(), n) == 9, name + " refused 9 at " + std::to_string(n));
        expect(out.unchanged_from(0), name + " leaves a short output unchanged");
        same_by_others(name, 9, call, out.data(), n, n % 2 == 0);
        tells(name, 9, n, call);
    }
    std::vector<uint8_t> first;
    for (size_t n : {size_t(length), size_t(length) + 1, size_t(1200), size_t(4096)}) {
        for (bool at_end : {false, true}) {
            Guarded out(n, at_end);
            expect(call(out.data(), n) == length, name + " has " + std::to_string(length));
            expect(out.unchanged_from(length), name + " leaves the rest unchanged");
            same_by_others(name, length, call, out.data(), n, at_end);
            std::vector<uint8_t> profile(out.data(), out.data() + length);
            if (first.empty()) first = profile;
            expect(first == profile, name + " is the same each time");
        }
        tells(name, length, n, call);
    }
    for (size_t n : {size_t(1) << 32, (size_t(1) << 32) + 5, SIZE_MAX}) tells(name, length, n, call);
    return first;
}

uint32_t word(const std::vector<uint8_t> &f, size_t at) {
    return uint32_t(f[at]) << 24 | uint32_t(f[at + 1]) << 16 | uint32_t(f[at + 2]) << 8 | f[at + 3];
}

// The element of a tag, by the file's own tag table.
std::vector<uint8_t> element(const std::vector<uint8_t> &f, const char *signature) {
    for (uint32_t i = 0; i < word(f, 128); i++) {
        size_t at = 132 + 12 * size_t(i);
        if (std::memcmp(&f[at], signature, 4) == 0)
            return {f.begin() + word(f, at + 4), f.begin() + word(f, at + 4) + word(f, at + 8)};
    }
    return {};
}

std::string text(const std::vector<uint8_t> &f) {
    std::vector<uint8_t> desc = element(f, "desc");
    std::string letters;
    for (size_t i = 29; i < desc.size(); i += 2) letters += char(desc[i]);
    return letters;
}

// ---- a profile read back

// The struct as `planRecord` of crates/plan_record lays it out.
const size_t plan_size = 492;
static_assert(sizeof(merqyduk_plan) == plan_size, "the size of the struct");
static_assert(offsetof(merqyduk_plan, kind) == 0 && offsetof(merqyduk_plan, intent) == 4, "kind and intent");
static_assert(offsetof(merqyduk_plan, maker) == 8 && offsetof(merqyduk_plan, model) == 12, "maker and model");
static_assert(offsetof(merqyduk_plan, id_not_computed) == 16, "the mark of a file without its id");
static_assert(offsetof(merqyduk_plan, curve) == 20 && offsetof(merqyduk_plan, gamma) == 24, "the curve");
static_assert(offsetof(merqyduk_plan, cicp) == 28 && offsetof(merqyduk_plan, adapted) == 32, "cicp and the mark of gray");
static_assert(offsetof(merqyduk_plan, white_x) == 36 && offsetof(merqyduk_plan, white_z) == 40, "the white");
static_assert(offsetof(merqyduk_plan, chad) == 44 && offsetof(merqyduk_plan, columns) == 80, "chad and columns");
static_assert(offsetof(merqyduk_plan, letters) == 116 && offsetof(merqyduk_plan, text) == 120, "the text");

// What was asked of the writer, and whether zeros were put in place of the id then. The kinds are gray 1, RGB 2 and XYB 3.
struct Asked {
    uint32_t kind, intent, curve;
    float gamma;
    bool adapted = false;
    Device device = {0, 0};
    bool id_not_computed = false;
};

// Nine numbers of a file, from bytes of elements one after another; zeros where there are none.
std::vector<int32_t> nine(const Bytes &bytes) {
    std::vector<int32_t> numbers;
    for (size_t at = 0; at < bytes.size(); at += 4) numbers.push_back(int32_t(word(bytes, at)));
    numbers.resize(9);
    return numbers;
}

// The numbers of an element, which follow eight bytes of type and reserved bytes.
Bytes numbers_of(const Bytes &f, const char *signature) {
    Bytes e = element(f, signature);
    return e.empty() ? e : Bytes(e.begin() + 8, e.end());
}

// The plan of a profile by what was asked and by the file's own tag table.
merqyduk_plan plan_of(const Bytes &f, const Asked &asked) {
    merqyduk_plan plan{};
    plan.kind = asked.kind;
    plan.maker = asked.device.maker;
    plan.model = asked.device.model;
    plan.id_not_computed = asked.id_not_computed ? 1 : 0;
    plan.intent = asked.intent;
    if (asked.kind == 3) return plan;
    plan.curve = asked.curve;
    if (asked.curve == MERQYDUK_CURVE_GAMMA)
        plan.gamma = int32_t(std::lround(double(1.0f / asked.gamma) * 65536));
    Bytes cicp = element(f, "cicp");
    if (!cicp.empty()) plan.cicp = cicp[8];
    plan.adapted = asked.adapted ? 1 : 0;
    if (asked.kind == 1 && !asked.adapted) {
        const std::vector<int32_t> white = nine(numbers_of(f, "wtpt"));
        plan.white_x = white[0];
        plan.white_z = white[2];
    } else {
        const std::vector<int32_t> chad = nine(numbers_of(f, "chad"));
        std::copy(chad.begin(), chad.end(), plan.chad);
        Bytes columns;
        for (const char *signature : {"rXYZ", "gXYZ", "bXYZ"})
            for (uint8_t byte : numbers_of(f, signature)) columns.push_back(byte);
        const std::vector<int32_t> column_numbers = nine(columns);
        std::copy(column_numbers.begin(), column_numbers.end(), plan.columns);
    }
    const std::string letters = text(f);
    plan.letters = uint32_t(letters.size());
    std::copy(letters.begin(), letters.end(), plan.text);
    return plan;
}

// The plan is stored at the front of every record that has room, and no shorter record is touched.
void reads(const std::string &name, const Bytes &f, const Asked &asked) {
    const merqyduk_plan expected = plan_of(f, asked);
    merqyduk_plan plan;
    expect(merqyduk_read(f.data(), f.size(), &plan, sizeof plan) == 0, name + " is read");
    expect(std::memcmp(&plan, &expected, sizeof plan) == 0, name + " has the plan that was asked for");
    expect(merqyduk_read(f.data(), f.size(), nullptr, 0) == 9, name + " read into no record");
    for (bool at_end : {false, true}) {
        auto file = guarded(f, at_end);
        for (size_t n : {size_t(0), size_t(1), size_t(120), plan_size - 1}) {
            Guarded record(n, at_end);
            expect(merqyduk_read(file->data(), f.size(), record.data(), n) == 9, name + " read into a short record");
            expect(record.unchanged_from(0), name + " leaves a short record unchanged");
        }
        for (size_t n : {plan_size, plan_size + 1, size_t(4096)}) {
            Guarded record(n, at_end);
            expect(merqyduk_read(file->data(), f.size(), record.data(), n) == 0, name + " read into a long record");
            expect(std::memcmp(record.data(), &expected, plan_size) == 0, name + " has its plan at the front");
            expect(record.unchanged_from(plan_size), name + " leaves the rest of the record unchanged");
        }
    }
}

// Every tag of the file's table is found where the table says, and no other.
void finds(const std::string &name, const Bytes &f) {
    auto file = guarded(f, true);
    for (uint32_t i = 0; i < word(f, 128); i++) {
        const size_t at = 132 + 12 * size_t(i);
        uint32_t offset = 0xdeadbeefu;
        expect(merqyduk_find(file->data(), f.size(), word(f, at), &offset) == word(f, at + 8), name + " has its tag");
        expect(offset == word(f, at + 4), name + " has its tag at its place");
    }
    // `gamt`, the bytes of `desc` the other way round, and numbers at the ends
    for (uint32_t signature : {0x67616d74u, 0x63736564u, 0u, 0xffffffffu}) {
        uint32_t offset = 0xdeadbeefu;
        expect(merqyduk_find(file->data(), f.size(), signature, &offset) == 0, name + " has no such tag");
        expect(offset == 0xdeadbeefu, name + " leaves the offset of no tag unchanged");
    }
}

// The reader's number comes before 9, and nothing is found in such a file.
void not_read(const std::string &name, uint32_t number, const Bytes &f) {
    for (bool at_end : {false, true}) {
        auto file = guarded(f, at_end);
        for (size_t n : {size_t(0), plan_size - 1, plan_size, size_t(4096)}) {
            Guarded record(n, at_end);
            expect(merqyduk_read(file->data(), f.size(), record.data(), n) == number,
                   name + " refused " + std::to_string(number));
            expect(record.unchanged_from(0), name + " leaves the record unchanged");
        }
        uint32_t offset = 0xdeadbeefu;
        expect(merqyduk_find(file->data(), f.size(), 0x64657363u, &offset) == 0, name + " has no element");
        expect(offset == 0xdeadbeefu, name + " leaves the offset unchanged");
    }
}

// A profile that is written, read back, and its elements found, with each of these makers and models. The same with zeros in place of its id; with a
// bit of the id or of the zeros changed it is refused.
Bytes profile(const std::string &name, uint32_t length, const Call &call, Asked asked, const std::vector<Device> &its_devices = devices) {
    const Bytes f = writes(name, length, call);
    for (const Device &device : its_devices) {
        same_device(name, length, call, device, f.data(), f.size(), true);
        const Bytes its = left_with(f, length, device);
        const size_t bit = next_id_bit();
        asked.device = device;
        for (bool no_id : {false, true}) {
            const Bytes file = no_id ? without_id(its) : its;
            asked.id_not_computed = no_id;
            reads(name, file, asked);
            finds(name, file);
            not_read(name + " with another id", 28, with_bit(file, bit));
        }
    }
    return f;
}

// ---- segments, as 02 has them

using Segments = std::vector<Bytes>;

Bytes segment(size_t sequence, size_t count, const Bytes &data) {
    const size_t length = data.size() + 16;
    Bytes made = {0xff, 0xe2, uint8_t(length >> 8), uint8_t(length), 'I', 'C', 'C', '_', 'P', 'R', 'O', 'F', 'I', 'L', 'E', 0,
                  uint8_t(sequence), uint8_t(count)};
    made.insert(made.end(), data.begin(), data.end());
    return made;
}

// How much data each segment has: `size` bytes, the last what is left. A file of no bytes is one segment without data.
std::vector<size_t> even(size_t length, size_t size) {
    std::vector<size_t> sizes(length == 0 ? 0 : (length - 1) / size, size);
    sizes.push_back(length - sizes.size() * size);
    return sizes;
}

// The file in segments with so much data each.
Segments cut(const Bytes &f, const std::vector<size_t> &sizes) {
    Segments parts;
    size_t at = 0;
    for (size_t size : sizes) {
        parts.push_back(segment(parts.size() + 1, sizes.size(), Bytes(f.begin() + at, f.begin() + at + size)));
        at += size;
    }
    return parts;
}

Segments reversed(Segments parts) {
    std::reverse(parts.begin(), parts.end());
    return parts;
}

Bytes in_row(const Segments &parts) {
    Bytes all;
    for (const Bytes &part : parts) all.insert(all.end(), part.begin(), part.end());
    return all;
}

// A call on an output of n bytes: its answer, its result at the front, and all else unchanged, what was read included.
void lends(const std::string &name, uint32_t answer, const Bytes &in, size_t n, const Bytes &result,
           const std::function<uint32_t(const uint8_t *, uint8_t *)> &call) {
    for (bool at_end : {false, true}) {
        auto kept = guarded(in, at_end);
        Guarded out(n, at_end);
        expect(call(kept->data(), out.data()) == answer, name + " answered " + std::to_string(answer) + " in " + std::to_string(n));
        expect(std::equal(in.begin(), in.end(), kept->data()), name + " leaves what it reads unchanged");
        expect(std::equal(result.begin(), result.end(), out.data()), name + " has its bytes");
        expect(out.unchanged_from(result.size()), name + " leaves the rest unchanged in " + std::to_string(n));
    }
    if (n == 0) expect(call(in.data(), nullptr) == answer, name + " with no output");
}

// No output is touched, whatever its length.
void refuses_put(const std::string &name, uint32_t number, const Bytes &f, size_t size) {
    const std::string what = name + " in segments of " + std::to_string(size);
    for (size_t n : {size_t(0), size_t(1), size_t(503), size_t(6000)})
        lends(what, number, f, n, {}, [&](const uint8_t *file, uint8_t *out) {
            return merqyduk_write_segments(file, f.size(), size, out, n);
        });
}

void puts_into(const std::string &name, uint32_t answer, const Bytes &f, size_t size, size_t n, const Bytes &result) {
    lends(name + " in segments of " + std::to_string(size), answer, f, n, result, [&](const uint8_t *file, uint8_t *out) {
        return merqyduk_write_segments(file, f.size(), size, out, n);
    });
}

// A file that the reader accepts: 53 by the size and the number of segments, 55 by the output, or the segments.
void puts(const std::string &name, const Bytes &f, size_t size) {
    if (size < 1 || size > 65519 || even(f.size(), size).size() > 255) return refuses_put(name, 53, f, size);
    const Bytes all = in_row(cut(f, even(f.size(), size)));
    for (size_t n : {size_t(0), size_t(1), f.size(), all.size() - 18, all.size() - 1}) puts_into(name, 55, f, size, n, {});
    for (size_t n : {all.size(), all.size() + 1, all.size() + 4096})
        puts_into(name, uint32_t(all.size()), f, size, n, all);
}

// The answer to segments in an output that has room, where `data` is what they hold by their sequence numbers. With less room it is 55, unless it is 54.
void joins(const std::string &name, uint32_t answer, const Segments &parts, const Bytes &data) {
    const Bytes all = in_row(parts);
    for (size_t n : {size_t(0), size_t(1), data.size() / 2, data.size() - 1, data.size(), data.size() + 1, data.size() + 4096}) {
        if (n == SIZE_MAX) continue; // one less than no data
        const uint32_t expected = answer != 54 && n < data.size() ? 55 : answer;
        lends(name + " joined", expected, all, n, expected >= MERQYDUK_MIN_PROFILE ? data : Bytes(),
              [&](const uint8_t *segments, uint8_t *out) { return merqyduk_join_segments(segments, all.size(), out, n); });
    }
}

// ---- files that are refused

// The file is not read, it is not put into segments, and from segments it does not come out.
void refuses_file(const std::string &name, uint32_t number, const Bytes &f) {
    not_read(name, number, f);
    for (size_t size : {size_t(0), size_t(1), size_t(100), size_t(65519), size_t(65520), SIZE_MAX})
        refuses_put(name, number, f, size);
    for (size_t size : {size_t(3), size_t(100), size_t(65519)}) {
        const Segments parts = cut(f, even(f.size(), size));
        joins(name, number, parts, f);
        joins(name + ", reversed", number, reversed(parts), f);
    }
}

// The white of a gray file: the third line of its table is `wtpt`, whose X follows eight bytes.
size_t white_at(const Bytes &gray) { return word(gray, 160) + 8; }

// By each number but 28, which comes last: the id may be the right one, or zeros stand in its place.
void bad_files(const Bytes &srgb, const Bytes &gray, const Bytes &xyb) {
    expect(merqyduk_read(nullptr, 0, nullptr, 0) == 21, "no file and no record");
    for (size_t n : {size_t(0), size_t(1), size_t(131)})
        refuses_file("a file cut to " + std::to_string(n), 21, Bytes(srgb.begin(), srgb.begin() + n));
    for (size_t n : {size_t(132), size_t(503)})
        refuses_file("a file cut to " + std::to_string(n), 22, Bytes(srgb.begin(), srgb.begin() + n));
    Bytes longer = srgb;
    longer.push_back(0);
    refuses_file("a file with a byte left", 22, longer);
    refuses_file("a wrong size field", 22, with(srgb, 3, uint8_t(srgb[3] + 4)));
    refuses_file("another class", 23, with(srgb, 12, 'x'));
    refuses_file("gray's space in an RGB file", 23, with(srgb, 16, 'G'));
    refuses_file("another signature", 23, with(srgb, 36, 'x'));
    refuses_file("a byte before the maker", 23, with_id(with(srgb, 47, 1)));
    refuses_file("a byte after the model", 23, with_id(with(srgb, 56, 1)));
    refuses_file("intent 4", 24, with(srgb, 67, 4));
    refuses_file("XYB intent 4", 24, with(xyb, 67, 4));
    refuses_file("another number of tags", 25, with(srgb, 131, uint8_t(srgb[131] - 1)));
    refuses_file("another offset", 25, with(srgb, 139, uint8_t(srgb[139] + 4)));
    refuses_file("a letter above 127", 26, with(srgb, word(srgb, 136) + 29, 128));
    refuses_file("another type", 26, with(gray, word(gray, 136), 'x'));
    refuses_file("a number of XYB", 26, with(xyb, xyb.size() - 1, uint8_t(xyb.back() ^ 1)));
    refuses_file("the intent of another XYB text", 26, with(xyb, 67, 1));
    const size_t white = white_at(gray);
    refuses_file("a white above its range", 27, with_number(gray, white, 2147483265));
    refuses_file("a white below its range", 27, with_number(gray, white, -2147483265));
}

// What the reader answers where a header has another byte here, and the id is right. Maker and model may be any, and the intent up to 3; but in XYB the
// text is then that of another intent.
uint32_t header_answer(size_t at, uint32_t intent, uint32_t kind) {
    if ((at >= 48 && at < 56) || (at >= 84 && at < 100)) return 0;
    if (at < 4) return 22;
    if (at < 64 || at >= 68) return 23;
    return intent > 3 ? 24 : kind == 3 ? 26 : 0;
}

// Each bit of the header changed, with the id that the file then has and with zeros in its place.
void header_bits(const Bytes &f, uint32_t kind) {
    for (size_t bit = 0; bit < 8 * 128; bit++) {
        const Bytes changed = with_id(with_bit(f, bit));
        const uint32_t expected = header_answer(bit / 8, word(changed, 64), kind);
        for (uint32_t mark : {0u, 1u}) {
            const Bytes file = mark == 1 ? without_id(changed) : changed;
            merqyduk_plan plan{};
            expect(merqyduk_read(file.data(), file.size(), &plan, sizeof plan) == expected,
                   "bit " + std::to_string(bit) + " of a header answered " + std::to_string(expected));
            if (expected == 0)
                expect(plan.maker == word(file, 48) && plan.model == word(file, 52) && plan.intent == word(file, 64) &&
                           plan.id_not_computed == mark,
                       "maker, model, intent and mark of a header");
        }
    }
}

// ---- ids

// Whether the file is read with its right id, and with zeros in place of it as the same plan with the mark; and whether it is refused, and the record
// unchanged, with a bit of the id or of the zeros changed.
bool id_right(const Bytes &f, size_t bit) {
    const Bytes right = with_id(f), none = without_id(f);
    merqyduk_plan held, plan, marked;
    std::memset(&held, 0xa5, sizeof held);
    if (merqyduk_read(right.data(), right.size(), &plan, sizeof plan) != 0 || plan.id_not_computed != 0) return false;
    if (merqyduk_read(none.data(), none.size(), &marked, sizeof marked) != 0) return false;
    plan.id_not_computed = 1;
    if (std::memcmp(&plan, &marked, sizeof plan) != 0) return false;
    for (const Bytes &wrong : {with_bit(right, bit), with_bit(none, bit)}) {
        merqyduk_plan left = held;
        if (merqyduk_read(wrong.data(), wrong.size(), &left, sizeof left) != 28) return false;
        if (std::memcmp(&left, &held, sizeof left) != 0) return false;
    }
    return true;
}

// A file with an id that is the right one of another.
void id_of_another(const std::string &name, const Bytes &f) {
    refuses_file(name, 28, f);
    expect(id_right(f, next_id_bit()), name + " with its right id and without one");
}

// With each bit of the right id changed, and of the zeros in its place; with bytes that are in part the right ones and zeros else; with other bytes.
void bad_ids(const Bytes &f) {
    const Bytes none = without_id(f);
    for (const Bytes *from : {&f, &none})
        for (size_t bit = 8 * 84; bit < 8 * 100; bit++) {
            const Bytes wrong = with_bit(*from, bit);
            // By all calls for at least one bit of each byte.
            if (bit % 7 == 0) refuses_file("bit " + std::to_string(bit) + " of an id", 28, wrong);
            else not_read("bit " + std::to_string(bit) + " of an id", 28, wrong);
        }
    for (size_t at = 84; at < 100; at++) {
        Bytes front = none, back = f;
        std::copy(f.begin() + 84, f.begin() + at, front.begin() + 84);
        std::fill(back.begin() + 84, back.begin() + at, 0);
        for (const Bytes &part : {front, back, with(f, at, 0), with(none, at, f[at])})
            if (part != f && part != none) refuses_file("a part of an id", 28, part);
    }
    Bytes ones = f, turned = f;
    std::fill(ones.begin() + 84, ones.begin() + 100, 0xff);
    std::reverse(turned.begin() + 84, turned.begin() + 100);
    refuses_file("ones for an id", 28, ones);
    refuses_file("an id from its end on", 28, turned);
    // The id is of maker and model too.
    for (size_t at = 48; at < 56; at++) id_of_another("another maker or model", with(f, at, uint8_t(f[at] ^ 1)));
}

void ids(const Bytes &srgb, const Bytes &gray, const Bytes &xyb) {
    for (const Bytes *f : {&srgb, &gray, &xyb}) bad_ids(*f);
    for (int32_t number : {2147483264, -2147483264, 0}) id_of_another("another white", with_number(gray, white_at(gray), number));
    id_of_another("another letter", with(srgb, word(srgb, 136) + 29, 'x'));
}

// ---- files that no encoding leads to, for the lengths that they have

// The file of the same plan but for a text of so many letters: all that stands after the text moves.
Bytes with_letters(const Bytes &f, size_t letters) {
    const size_t at = word(f, 136), before = (word(f, 140) + 3) / 4 * 4, size = 28 + 2 * letters;
    Bytes made(f.begin(), f.begin() + at + 28);
    made.resize(at + (size + 3) / 4 * 4);
    for (size_t i = 0; i < letters; i++) made[at + 29 + 2 * i] = uint8_t('!' + i % 90);
    made.insert(made.end(), f.begin() + at + before, f.end());
    made = with_number(made, 0, int32_t(made.size()));
    made = with_number(made, at + 20, int32_t(2 * letters));
    made = with_number(made, 140, int32_t(size));
    for (uint32_t i = 1; i < word(f, 128); i++) {
        const size_t offset = 136 + 12 * size_t(i);
        made = with_number(made, offset, int32_t(word(f, offset) + made.size() - f.size()));
    }
    return with_id(made);
}

// ---- files put into segments

// All sizes of data that could make a difference, and each size below the length by the bytes of one output.
void put_into_segments(const std::string &name, const Bytes &f) {
    merqyduk_plan plan;
    expect(merqyduk_read(f.data(), f.size(), &plan, sizeof plan) == 0, name + " is read");
    std::vector<size_t> sizes = {0, 1, 2, 3, 4, 5, 7, 100, f.size() - 1, f.size(), f.size() + 1, 65519, 65520, 65536, 65541,
                                 (size_t(1) << 32) + 5, (size_t(1) << 32) + 65519, SIZE_MAX - 1, SIZE_MAX};
    for (size_t size = 8; size < f.size() - 1; size++)
        if (f.size() % size == 0) sizes.push_back(size);
    for (size_t size : sizes) puts(name, f, size);
    bool all_right = true;
    for (size_t size = 1; size <= f.size() + 2; size++) {
        const Bytes all = in_row(cut(f, even(f.size(), size)));
        Bytes out(MERQYDUK_MAX_SEGMENTS_LENGTH, 7), after = out;
        const bool few = even(f.size(), size).size() <= 255;
        if (few) std::copy(all.begin(), all.end(), after.begin());
        all_right = all_right && merqyduk_write_segments(f.data(), f.size(), size, out.data(), out.size()) ==
                                     (few ? uint32_t(all.size()) : 53u);
        all_right = all_right && out == after;
    }
    expect(all_right, name + " in segments of each size");
}

// Exactly 255 segments and 256 with the same size of data, and the longest file.
void numbers_of_segments(const Bytes &srgb, const Bytes &gray) {
    const struct {
        const Bytes &from;
        size_t letters, length, size, count;
    } files[] = {{gray, 234, 764, 3, 255}, {gray, 236, 768, 3, 256},  {gray, 362, 1020, 4, 255},  {gray, 364, 1024, 4, 256},
                 {gray, 108, 512, 2, 256}, {gray, 106, 508, 2, 254},  {srgb, 134, 764, 3, 255},   {srgb, 136, 768, 3, 256},
                 {srgb, 262, 1020, 4, 255}, {srgb, 264, 1024, 4, 256}, {srgb, 372, 1240, 5, 248}, {srgb, 371, 1240, 4, 310}};
    for (const auto &file : files) {
        const Bytes f = with_letters(file.from, file.letters);
        expect(f.size() == file.length, "a file of " + std::to_string(file.length));
        expect(even(f.size(), file.size).size() == file.count, std::to_string(file.count) + " segments");
        put_into_segments("a file of " + std::to_string(file.length), f);
    }
    const Bytes longest = with_letters(srgb, 372), most = in_row(cut(longest, even(1240, 5)));
    expect(longest.size() == MERQYDUK_MAX_FILE && most.size() <= MERQYDUK_MAX_SEGMENTS_LENGTH, "the longest file in segments");
    for (size_t n = 0; n < most.size(); n++) puts_into("the longest file", 55, longest, 5, n, {});
}

// ---- segments joined

// Segments with so much data each, in order, reversed, and with each other one first.
void joins_in_any_order(const std::string &name, uint32_t answer, const Bytes &f, const std::vector<size_t> &sizes) {
    const Segments parts = cut(f, sizes);
    joins(name, answer, parts, f);
    joins(name + ", reversed", answer, reversed(parts), f);
    Segments mixed;
    for (size_t first : {size_t(1), size_t(0)})
        for (size_t i = first; i < parts.size(); i += 2) mixed.push_back(parts[i]);
    joins(name + ", mixed", answer, mixed, f);
}

void good_segments(const std::string &name, const Bytes &f) {
    const size_t length = f.size();
    for (size_t size : {size_t(6), size_t(7), size_t(100), length / 3 + 1, length / 2, length - 1, length, length + 1})
        joins_in_any_order(name + " by " + std::to_string(size), uint32_t(length), f, even(length, size));
    // Data of other sizes, none in the first, a middle and the last segment, and as many segments as there can be.
    joins_in_any_order(name + " unevenly", uint32_t(length), f, {1, 140, 3, 90, length - 234});
    joins_in_any_order(name + " with no data in front", uint32_t(length), f, {0, 17, 0, 0, length - 17});
    joins_in_any_order(name + " with no data at the end", uint32_t(length), f, {length - 1, 1, 0});
    joins_in_any_order(name + " and an empty segment", uint32_t(length), f, {length, 0});
    std::vector<size_t> many(255, 1);
    many[0] = 0;
    many[254] = length - 253;
    joins_in_any_order(name + " in 255", uint32_t(length), f, many);
    std::rotate(many.begin(), many.begin() + 100, many.end());
    joins_in_any_order(name + " in 255 others", uint32_t(length), f, many);
    // All orders of four.
    const Segments parts = cut(f, even(length, length / 4));
    expect(parts.size() == 4, name + " in four");
    std::vector<size_t> order(parts.size());
    for (size_t i = 0; i < order.size(); i++) order[i] = i;
    do {
        Segments mixed;
        for (size_t i : order) mixed.push_back(parts[i]);
        joins(name + " in four", uint32_t(length), mixed, f);
    } while (std::next_permutation(order.begin(), order.end()));
}

// The segments with one byte of one of them changed.
Segments with(Segments parts, size_t which, size_t at, size_t byte) {
    parts[which][at] = uint8_t(byte);
    return parts;
}

// One fault at a time, in each of three segments, in an order that is not theirs. `f` is what they would hold.
void bad_fronts(const Bytes &f) {
    const Segments parts = cut(f, even(f.size(), f.size() / 3 + 1));
    expect(parts.size() == 3, "three segments");
    const Segments row = {parts[1], parts[2], parts[0]};
    joins("three segments", uint32_t(f.size()), row, f);
    for (size_t which = 0; which < 3; which++) {
        const std::string name = "segment " + std::to_string(which) + " with ";
        joins(name + "marker FE E2", 54, with(row, which, 0, 0xfe), f);
        joins(name + "marker FF E1", 54, with(row, which, 1, 0xe1), f);
        for (size_t i = 4; i < 16; i++) joins(name + "another name", 54, with(row, which, i, row[which][i] ^ 0x20), f);
        for (size_t count : {0, 1, 2, 4, 255}) joins(name + "another count", 54, with(row, which, 17, count), f);
        for (size_t sequence : {0, 4, 255}) joins(name + "no such sequence number", 54, with(row, which, 16, sequence), f);
        for (size_t sequence = 1; sequence <= 3; sequence++)
            if (sequence != row[which][16]) joins(name + "another's sequence number", 54, with(row, which, 16, sequence), f);
        const size_t length = row[which].size() - 2;
        for (size_t other : {size_t(0), size_t(1), size_t(15), size_t(16), length - 1, length + 1, size_t(65535)})
            joins(name + "another length", 54, with(with(row, which, 2, other >> 8), which, 3, other), f);
        Segments two = row;
        two.erase(two.begin() + std::ptrdiff_t(which));
        joins(name + "itself missing", 54, two, f);
        Segments four = row;
        four.push_back(row[which]);
        joins(name + "itself twice", 54, four, f);
        for (Bytes &part : four) part[17] = 4;
        joins(name + "itself twice, and counted so", 54, four, f);
    }
    for (size_t count : {0, 1, 2, 4, 255})
        joins("another count in all", 54, with(with(with(row, 0, 17, count), 1, 17, count), 2, 17, count), f);
}

void bad_segments(const Bytes &f) {
    bad_fronts(f);
    const Segments whole = {segment(1, 1, f)};
    joins("one segment", uint32_t(f.size()), whole, f);
    expect(merqyduk_join_segments(nullptr, 0, nullptr, 0) == 54, "no segment and no output");
    joins("no segment", 54, {}, f);
    const size_t length = f.size() + 16;
    for (size_t other : {length - 1, length + 1, size_t(15), size_t(0), size_t(65535)})
        joins("one segment of another length", 54, with(with(whole, 0, 2, other >> 8), 0, 3, other), f);
    for (size_t sequence : {0, 2, 255}) joins("one segment of another number", 54, with(whole, 0, 16, sequence), f);
    for (size_t count : {0, 2, 255}) joins("one segment of another count", 54, with(whole, 0, 17, count), f);
    // A front alone: of length 16 it is a segment without data, which the reader refuses, and of length 15 none.
    joins("an empty segment", 21, {segment(1, 1, {})}, {});
    joins("a front of length 15", 54, with({segment(1, 1, {})}, 0, 3, 15), {});
    Segments cut_off = {segment(1, 1, {})};
    cut_off[0].pop_back();
    joins("a front of length 15 with 17 bytes", 54, with(cut_off, 0, 3, 15), {});
    for (size_t count : {2, 255}) joins("empty segments", 21, cut({}, std::vector<size_t>(count, 0)), {});
    // Bytes after the last segment, and each cut.
    for (uint8_t byte : {0x00, 0xff, 0xe2}) joins("a stray byte", 54, {whole[0], {byte}}, f);
    joins("a stray marker", 54, {whole[0], {0xff, 0xe2}}, f);
    joins("a stray end of the picture", 54, {whole[0], {0xff, 0xd9}}, f);
    joins("a stray byte in front", 54, {{0}, whole[0]}, f);
    joins("a fill byte in front", 54, {{0xff}, whole[0]}, f);
    joins("a stray byte between", 54, {cut(f, even(f.size(), 200))[0], {0}, cut(f, even(f.size(), 200))[1]}, f);
    const Bytes two = in_row(cut(f, even(f.size(), f.size() / 2)));
    for (size_t n = 0; n < two.size(); n++) joins("a cut to " + std::to_string(n), 54, {Bytes(two.begin(), two.begin() + n)}, {});
}

// 256 segments have no count: a byte has none, whatever their numbers.
void too_many_segments(const Bytes &f) {
    std::vector<size_t> sizes(256, 0);
    sizes[0] = f.size();
    for (size_t length : {256, 257, 300, 511, 512}) {
        sizes.resize(length);
        joins(std::to_string(length) + " segments", 54, cut(f, sizes), f);
        for (size_t count : {0, 1, 255}) {
            Segments parts = cut(f, sizes);
            for (Bytes &part : parts) part[17] = uint8_t(count);
            joins(std::to_string(length) + " segments that count otherwise", 54, parts, f);
            // With 1 to 255 and one of these again, or all the same.
            parts[255][16] = 255;
            joins(std::to_string(length) + " segments up to 255", 54, parts, f);
        }
    }
}

// A front of length 15 with the next right behind it. In the place of its count stands the FF of the next marker, which is right for 255 segments.
void front_of_fifteen(const Bytes &f) {
    std::vector<size_t> sizes(255, 1);
    sizes[7] = 0;
    sizes[254] = f.size() - 253;
    Segments parts = cut(f, sizes);
    joins("255 segments", uint32_t(f.size()), parts, f);
    parts[7][3] = 15;
    parts[7].pop_back();
    joins("a front of length 15 among 255", 54, parts, f);
    joins("a front of length 15 among 255, reversed", 54, reversed(parts), f);
}

// More data than a file has: the reader's number is found without the whole of it in one place.
void long_data(const Bytes &from, size_t length, const std::vector<size_t> &sizes) {
    Bytes data = from;
    for (size_t i = from.size(); i < length; i++) data.push_back(uint8_t(i * 7));
    data = with_number(data, 0, int32_t(length));
    const std::string name = "data of " + std::to_string(length) + " bytes";
    joins_in_any_order(name, 25, data, sizes);
    joins_in_any_order(name + " with intent 4", 24, with(data, 67, 4), sizes);
    for (uint8_t intent : {0, 1, 2, 3}) joins_in_any_order(name + " with a known intent", 25, with(data, 67, intent), sizes);
    joins_in_any_order(name + " of another class", 23, with(data, 12, 'x'), sizes);
    joins_in_any_order(name + " with a reserved byte", 23, with(data, 127, 1), sizes);
    joins_in_any_order(name + " with maker and model", 25, with_device(data, acme), sizes);
    joins_in_any_order(name + " with a byte before the maker", 23, with(data, 47, 1), sizes);
    joins_in_any_order(name + " with a byte after the model", 23, with(data, 56, 1), sizes);
    joins_in_any_order(name + " with another size field", 22, with(data, 0, 1), sizes);
    joins_in_any_order(name + " with the size field of the file", 22, with_number(data, 0, int32_t(from.size())), sizes);
    // The first that applies.
    joins_in_any_order(name + " with two faults", 22, with(with(data, 3, uint8_t(data[3] + 1)), 12, 'x'), sizes);
    joins_in_any_order(name + " with two others", 23, with(with(data, 67, 4), 12, 'x'), sizes);
}

void much_data(const Bytes &srgb, const Bytes &gray, const Bytes &xyb) {
    for (const Bytes *from : {&srgb, &gray, &xyb}) {
        for (size_t length : {size_t(1240), size_t(1241), size_t(1244), size_t(2000)})
            for (size_t size : {size_t(8), size_t(300), size_t(65519)}) long_data(*from, length, even(length, size));
        // The header in segments of a byte, and after them others.
        std::vector<size_t> sizes(200, 1);
        sizes.insert(sizes.end(), {0, 1000, 0, 800});
        long_data(*from, 2000, sizes);
    }
    for (size_t length : {size_t(65519), size_t(65520), size_t(65536 + 504), size_t(200000)})
        long_data(srgb, length, even(length, 65519));
}

// As much data as segments can have. By its few outputs alone: each is of 16 MB.
void most_data(const Bytes &srgb) {
    Bytes data = srgb;
    data.resize(255 * 65519, 0xa5);
    data = with_number(data, 0, int32_t(data.size()));
    const struct {
        uint32_t number;
        Bytes data;
    } all[] = {{25, data}, {25, with_device(data, acme)}, {24, with(data, 67, 4)}, {23, with(data, 12, 'x')},
               {22, with(data, 3, uint8_t(data[3] + 1))}};
    Bytes out(data.size(), 7);
    const Bytes before = out;
    for (const auto &one : all) {
        const Segments parts = cut(one.data, even(one.data.size(), 65519));
        expect(parts.size() == 255, "255 segments with all the data that they can have");
        for (const Bytes &row : {in_row(parts), in_row(reversed(parts))}) {
            expect(merqyduk_join_segments(row.data(), row.size(), out.data(), out.size()) == one.number,
                   "the most data refused " + std::to_string(one.number));
            expect(merqyduk_join_segments(row.data(), row.size(), out.data(), out.size() - 1) == 55, "the most data in a byte less");
            expect(merqyduk_join_segments(row.data(), row.size() - 1, out.data(), out.size()) == 54, "the most data, cut");
            expect(out == before, "the most data leaves the output unchanged");
        }
    }
}

// ---- segments held against 02 once more, by a joiner that follows its words

struct Joined {
    uint32_t answer;
    Bytes data;
};

Joined joined(const Bytes &row, size_t out_len) {
    const Bytes front = segment(0, 0, {});
    std::map<size_t, Bytes> by_sequence;
    std::vector<size_t> counts;
    for (size_t at = 0; at < row.size();) {
        if (row.size() - at < 18) return {54, {}};
        const size_t length = size_t(row[at + 2]) << 8 | row[at + 3];
        if (row[at] != 0xff || row[at + 1] != 0xe2 || length < 16 || length > row.size() - at - 2 ||
            !std::equal(front.begin() + 4, front.begin() + 16, row.begin() + at + 4))
            return {54, {}};
        by_sequence[row[at + 16]] = Bytes(row.begin() + at + 18, row.begin() + at + 2 + length);
        counts.push_back(row[at + 17]);
        at += 2 + length;
    }
    if (counts.empty() || std::count(counts.begin(), counts.end(), counts.size()) != std::ptrdiff_t(counts.size())) return {54, {}};
    Bytes data;
    for (size_t sequence = 1; sequence <= counts.size(); sequence++) {
        if (!by_sequence.count(sequence)) return {54, {}};
        data.insert(data.end(), by_sequence[sequence].begin(), by_sequence[sequence].end());
    }
    if (out_len < data.size()) return {55, {}};
    merqyduk_plan plan;
    const uint32_t refusal = merqyduk_read(data.data(), data.size(), &plan, sizeof plan);
    if (refusal != 0) return {refusal, {}};
    return {uint32_t(data.size()), data};
}

// Whether the call answers and writes the same. The answers are counted.
bool joined_right(const Bytes &row, size_t out_len, std::map<uint32_t, int> &answers) {
    const Joined expected = joined(row, out_len);
    Bytes in = row, out(out_len, 7), after = out;
    std::copy(expected.data.begin(), expected.data.end(), after.begin());
    answers[expected.answer]++;
    return merqyduk_join_segments(in.data(), in.size(), out.data(), out.size()) == expected.answer && out == after && in == row;
}

// Every byte of every front with every value.
void changed_fronts(const Bytes &f) {
    std::map<uint32_t, int> answers;
    bool all_right = true;
    const Segments row = reversed(cut(f, even(f.size(), f.size() / 3 + 1)));
    for (size_t which = 0; which < row.size(); which++)
        for (size_t at = 0; at < 18; at++)
            for (size_t byte = 0; byte < 256; byte++)
                all_right = joined_right(in_row(with(row, which, at, byte)), f.size(), answers) && all_right;
    expect(all_right, "a front with any byte changed");
    // Each of the 54 bytes of the three fronts has one value of its own.
    expect(answers[uint32_t(f.size())] == 54 && answers.size() == 2, "none but the unchanged ones are joined");
}

// Segments by chance: how many, how much data each has, their order, and what is damaged.
void segments_by_chance(const Bytes &f) {
    uint64_t state = 1;
    const auto below = [&](size_t n) {
        state = state * 6364136223846793005u + 1442695040888963407u;
        return size_t(state >> 33) % n;
    };
    std::map<uint32_t, int> answers;
    bool all_right = true;
    for (int n = 0; n < 20000; n++) {
        std::vector<size_t> sizes;
        size_t left = f.size();
        for (size_t more = below(n % 10 == 0 ? 254 : 8); more > 0; more--) {
            sizes.push_back(below(n % 2 == 0 ? left + 1 : left / 4 + 1));
            left -= sizes.back();
        }
        sizes.push_back(left);
        Segments parts = cut(f, sizes);
        for (size_t i = parts.size(); i > 1; i--) std::swap(parts[i - 1], parts[below(i)]);
        Bytes &some = parts[below(parts.size())];
        const size_t damage = below(12), at = below(18);
        if (damage == 0) some[at] = uint8_t(below(256));
        if (damage == 1) some[16] = uint8_t(below(parts.size() + 2));
        if (damage == 2) some[2 + below(2)] ^= uint8_t(1 << below(8));
        if (damage == 3) some.pop_back();
        if (damage == 4 && some.size() > 18) some.back() ^= 1;
        if (damage == 5) parts.pop_back();
        if (damage == 6) parts.push_back(some);
        const size_t lengths[] = {f.size(), f.size() + below(100), f.size() - 1, below(f.size()), MERQYDUK_MAX_FILE};
        all_right = joined_right(in_row(parts), lengths[below(5)], answers) && all_right;
    }
    expect(all_right, "segments by chance");
    for (uint32_t answer : {uint32_t(f.size()), 26u, 28u, 54u, 55u})
        expect(answers[answer] > 20, "segments by chance that are answered " + std::to_string(answer));
}

// ---- lengths of four gigabytes and a little: none is cut to 32 bits

// Bytes of which a little can be written at the front. The rest takes no memory: it is zero and only to be read.
class Vast {
  public:
    Vast() : front_(65536), size_((size_t(1) << 32) + front_) {
        bytes_ = static_cast<uint8_t *>(mmap(nullptr, size_, PROT_READ, MAP_PRIVATE | MAP_ANONYMOUS | MAP_NORESERVE, -1, 0));
        if (bytes_ == MAP_FAILED || mprotect(bytes_, front_, PROT_READ | PROT_WRITE) != 0) {
            std::perror("mmap");
            std::exit(2);
        }
    }
    ~Vast() { munmap(bytes_, size_); }
    Vast(const Vast &) = delete;
    Vast &operator=(const Vast &) = delete;
    uint8_t *with(const Bytes &bytes) {
        std::copy(bytes.begin(), bytes.end(), bytes_);
        return bytes_;
    }
    uint8_t *cleared() { return with(Bytes(front_)); }

  private:
    size_t front_, size_;
    uint8_t *bytes_;
};

void vast_lengths(const Bytes &f) {
    const size_t more = size_t(1) << 32;
    Vast vast;
    const Bytes row = in_row(cut(f, even(f.size(), 100)));
    Bytes out(6000, 7);
    const Bytes before = out;
    expect(merqyduk_write_segments(vast.with(f), more + f.size(), 100, out.data(), out.size()) == 22, "a vast file");
    expect(merqyduk_join_segments(vast.with(row), more + row.size(), out.data(), out.size()) == 54, "vast segments");
    expect(out == before, "a vast input leaves the output unchanged");
    uint8_t *lent = vast.cleared();
    expect(merqyduk_write_segments(f.data(), f.size(), 100, lent, more + 5) == row.size(), "segments in a vast output");
    expect(std::equal(row.begin(), row.end(), lent) && lent[row.size()] == 0, "and their bytes");
    lent = vast.cleared();
    expect(merqyduk_join_segments(row.data(), row.size(), lent, more + 5) == f.size(), "a file in a vast output");
    expect(std::equal(f.begin(), f.end(), lent) && lent[f.size()] == 0, "and its bytes");
}

// A profile in such an output, written with a count, with maker and model, and without.
void vast_output(const std::string &name, const Bytes &f, const Call &call) {
    const size_t length = (size_t(1) << 32) + 5;
    Vast vast;
    uint8_t *lent = vast.cleared();
    expect(call(lent, length) == f.size(), name + " in a vast output");
    expect(std::equal(f.begin(), f.end(), lent) && lent[f.size()] == 0, "and its bytes");
    lent = vast.cleared();
    has_count(name + " in a vast output", uint32_t(f.size()), call, [&](uint32_t *count) { return call.write_counted(lent, length, count); });
    expect(std::equal(f.begin(), f.end(), lent) && lent[f.size()] == 0, "and its bytes, counted");
    lent = vast.cleared();
    const Bytes its = with_device(f, acme);
    expect(call.write_device(acme, lent, length) == its.size(), name + " with maker and model in a vast output");
    expect(std::equal(its.begin(), its.end(), lent) && lent[its.size()] == 0, "and its bytes, with maker and model");
}

void segments(const Bytes &srgb, const Bytes &gray, const Bytes &xyb) {
    for (const Device &device : {Device{0, 0}, acme}) {
        const struct {
            std::string name;
            Bytes bytes;
        } files[] = {{"sRGB", with_device(srgb, device)}, {"gray", with_device(gray, device)}, {"XYB", with_device(xyb, device)}};
        for (const auto &file : files)
            for (const Bytes &bytes : {file.bytes, without_id(file.bytes)}) {
                put_into_segments(file.name, bytes);
                good_segments(file.name, bytes);
            }
    }
    numbers_of_segments(srgb, gray);
    // The number of the file comes first, then 53, then 55.
    expect(merqyduk_write_segments(nullptr, 0, 0, nullptr, 0) == 21, "no file, no size and no output");
    expect(merqyduk_write_segments(gray.data(), gray.size(), 0, nullptr, 0) == 53, "no size and no output");
    expect(merqyduk_write_segments(gray.data(), gray.size(), 1, nullptr, 0) == 53, "too many segments and no output");
    expect(merqyduk_write_segments(gray.data(), gray.size(), 2, nullptr, 0) == 55, "no output");

    const Bytes longest = with_letters(srgb, 372);
    for (const Bytes &f : {longest, without_id(longest)}) good_segments("the longest file", f);
    for (const Bytes *f : {&srgb, &gray, &xyb}) {
        bad_segments(*f);
        too_many_segments(*f);
        front_of_fifteen(*f);
        changed_fronts(*f);
    }
    segments_by_chance(gray);
    much_data(srgb, gray, xyb);
    most_data(srgb);
    vast_lengths(srgb);
}

// ---- jobs

// A job answers 0 and its number of entries, and has no entry past them; or it is refused, and with it each of its entries.
void counts(const std::string &name, uint32_t entries, const Bytes &job) {
    for (bool at_end : {false, true}) {
        uint32_t told = 0xdeadbeefu;
        expect(merqyduk_job(guarded(job, at_end)->data(), job.size(), &told) == 0, name + " is a job");
        expect(told == entries, name + " has " + std::to_string(entries) + " entries");
    }
    refuses(name + " past its end", 0, entry(job, entries));
    refuses(name + " far past its end", 0, entry(job, SIZE_MAX));
}

void refuses_job(const std::string &name, uint32_t number, const Bytes &job) {
    for (bool at_end : {false, true}) {
        uint32_t told = 0xdeadbeefu;
        expect(merqyduk_job(guarded(job, at_end)->data(), job.size(), &told) == number,
               name + " refused " + std::to_string(number));
        expect(told == 0xdeadbeefu, name + " leaves the number of entries unchanged");
    }
    for (size_t i : {size_t(0), size_t(1), size_t(2), SIZE_MAX}) refuses(name, number, entry(job, i));
}

// The job of 01: one RGB entry, sRGB, and one XYB entry, Relative.
Bytes example() { return with(with(with(with(Bytes(44), 1, 1), 36, 2), 42, 1), 43, 1); }

void good_jobs(const Bytes &srgb, const Bytes &xyb_relative) {
    counts("the job of 01", 2, example());
    expect(writes("entry 0", 504, entry(example(), 0)) == srgb, "entry 0 has the profile of sRGB");
    expect(writes("entry 1", 720, entry(example(), 1)) == xyb_relative, "entry 1 has the profile of XYB Relative");
    counts("a job without entries", 0, Bytes(3));

    // Two gray entries, Relative and PQ, one RGB and one XYB, in this order over all sections.
    Bytes all = {2};
    all.insert(all.end(), {0, 0, 0, 0, 0, 0, 0, 0, 0, 2, 0, 0, 0, 0, 1});
    all.insert(all.end(), {0, 0, 0, 0, 0, 0, 0, 0, 0, 3, 0, 0, 0, 0, 1});
    const Bytes rest = with(example(), 43, 0);
    all.insert(all.end(), rest.begin() + 1, rest.end());
    counts("a job of all sections", 4, all);
    writes("its gray entry", 328, entry(all, 0));
    refuses("its second gray entry", 1, entry(all, 1));
    expect(writes("its RGB entry", 504, entry(all, 2)) == srgb, "the third entry has the profile of sRGB");
    writes("its XYB entry", 720, entry(all, 3));

    // The longest job is past the pages of Guarded.
    Bytes longest(14283);
    longest[0] = longest[3826] = longest[14027] = 255;
    uint32_t told = 0;
    expect(merqyduk_job(longest.data(), longest.size(), &told) == 0 && told == 765, "the longest job has 765 entries");
    uint8_t out[1200];
    expect(merqyduk_job_profile(longest.data(), longest.size(), 764, out, sizeof out) == 720, "its last is XYB");
    expect(merqyduk_job_profile(longest.data(), longest.size(), 765, out, sizeof out) == 0, "it has no more");
}

void bad_jobs() {
    for (size_t n = 0; n < 44; n++) {
        const Bytes whole = example();
        refuses_job("a job cut to " + std::to_string(n), 41, Bytes(whole.begin(), whole.begin() + n));
    }
    Bytes more = example();
    more.push_back(0);
    refuses_job("a job with a byte left", 42, more);
    refuses_job("white 4 in a job", 43, with(example(), 2, 4));
    refuses_job("primaries 4 in a job", 43, with(example(), 11, 4));
    refuses_job("curve 7 in a job", 43, with(example(), 36, 7));
    refuses_job("intent 4 in a job", 43, with(example(), 41, 4));
    refuses_job("XYB intent 255 in a job", 43, with(example(), 43, 255));

    // 41 and 42 come before 43 anywhere.
    Bytes cut = with(example(), 41, 4);
    cut.pop_back();
    refuses_job("intent 4 in a cut job", 41, cut);
    refuses_job("intent 4 in a job with a byte left", 42, with(more, 41, 4));

    uint32_t told = 7;
    expect(merqyduk_job(nullptr, 0, &told) == 41 && told == 7, "no job");
    expect(merqyduk_job_profile(nullptr, 0, 0, nullptr, 0) == 41, "no job and no output");
}

// ---- typed texts

using Encoding = merqyduk_encoding;

static_assert(sizeof(Encoding) == 68, "the struct has no gaps, so that its bytes can be compared");

float float_of(uint32_t bits) {
    float value;
    std::memcpy(&value, &bits, sizeof value);
    return value;
}

// The numbers of an own white, of own primaries and of a gamma, in the order of a record.
std::vector<float Encoding::*> float_members() {
    using E = Encoding;
    return {&E::wx, &E::wy, &E::rx, &E::ry, &E::gx, &E::gy, &E::bx, &E::by, &E::gamma};
}

Encoding with_device(Encoding e, Device device) {
    e.maker = device.maker;
    e.model = device.model;
    return e;
}

// The bytes of a record as `encodingRecord` of crates/encoding_record has them. Maker, model and mark are not in it.
Bytes record_of(const Encoding &e) {
    Bytes record;
    auto number = [&](uint32_t n) { record.push_back(uint8_t(n)); };
    auto floats = [&](std::initializer_list<float> list) {
        for (float value : list) {
            uint32_t bits;
            std::memcpy(&bits, &value, sizeof bits);
            for (int shift : {24, 16, 8, 0}) number(bits >> shift & 255);
        }
    };
    number(e.space);
    number(e.white);
    floats({e.wx, e.wy});
    number(e.primaries);
    floats({e.rx, e.ry, e.gx, e.gy, e.bx, e.by});
    number(e.curve);
    floats({e.gamma});
    number(e.intent);
    return record;
}

// The calls that write the encoding and tell its length, with the numbers of the struct but for maker and model. The calls that take the mark are
// those of gray with a mark alone.
Call call_of(const Encoding &e) {
    if (e.space == MERQYDUK_SPACE_GRAY && e.adapted != 0) return adapted_gray(e.adapted, e.white, e.wx, e.wy, e.curve, e.gamma, e.intent);
    if (e.space == MERQYDUK_SPACE_GRAY) return gray(e.white, e.wx, e.wy, e.curve, e.gamma, e.intent);
    if (e.space == MERQYDUK_SPACE_XYB) return xyb(e.intent);
    return rgb(e.white, e.wx, e.wy, e.primaries, {e.rx, e.ry, e.gx, e.gy, e.bx, e.by}, e.curve, e.gamma, e.intent);
}

// A text as a message shows it.
std::string shown(const std::string &text) {
    std::string letters;
    for (unsigned char c : text.substr(0, 120)) {
        char code[8];
        std::snprintf(code, sizeof code, "\\x%02x", unsigned(c));
        letters += c >= ' ' && c < 127 ? std::string(1, char(c)) : code;
    }
    return "the text \"" + letters + "\"";
}

uint32_t parse(const std::string &text, uint8_t *record, size_t n) {
    return merqyduk_parse_description(reinterpret_cast<const uint8_t *>(text.data()), text.size(), record, n);
}

// Answers `answer` to a record with room. Lends records of many lengths, among other bytes and at pages that may not be touched: with answer 0 the
// record stands at their front, or 9 is answered where they are too short; every other byte, and the text, stays as it was.
void answers(const std::string &text, uint32_t answer, const Bytes &record) {
    const std::string name = shown(text);
    const Bytes bytes(text.begin(), text.end());
    const size_t before = 64;
    for (size_t n : {size_t(0), size_t(1), size_t(40), size_t(41), size_t(42), size_t(60)}) {
        const uint32_t expected = answer == 0 && n < 41 ? 9 : answer;
        Bytes around(before + n + 64);
        for (size_t i = 0; i < around.size(); i++) around[i] = Guarded::fill(i);
        Bytes after = around;
        if (expected == 0) std::copy(record.begin(), record.end(), after.begin() + before);
        Bytes typed = bytes;
        expect(merqyduk_parse_description(typed.data(), typed.size(), &around[before], n) == expected,
               name + " answered " + std::to_string(expected) + " in " + std::to_string(n));
        expect(around == after, name + " with the bytes around " + std::to_string(n));
        expect(typed == bytes, name + " stays as it was");
        for (bool at_end : {false, true}) {
            auto kept = guarded(bytes, at_end);
            Guarded lent(n, at_end);
            expect(merqyduk_parse_description(kept->data(), bytes.size(), lent.data(), n) == expected,
                   name + " between pages answered " + std::to_string(expected));
            expect(std::equal(bytes.begin(), bytes.end(), kept->data()), name + " between pages stays as it was");
            expect(expected != 0 || std::equal(record.begin(), record.end(), lent.data()), name + " has its record");
            expect(lent.unchanged_from(expected == 0 ? 41 : 0), name + " leaves the rest of the record unchanged");
        }
    }
    expect(parse(text, nullptr, 0) == (answer == 0 ? 9 : answer), name + " with no record");
}

void refuses_text(const std::string &text, uint32_t number) {
    answers(text, number, {});
    Encoding e, before;
    std::memset(&e, 0xa5, sizeof e);
    before = e;
    expect(merqyduk_parse(text.data(), text.size(), &e) == number, shown(text) + " refused " + std::to_string(number));
    expect(std::memcmp(&e, &before, sizeof e) == 0, shown(text) + " leaves the struct unchanged");
}

// The struct answers so in n bytes, with a count and without, and leaves these bytes; it tells the same without an output.
void same_struct(const std::string &name, uint32_t answer, const Call &call, const Encoding &e, const Bytes &left, size_t n) {
    Bytes plain(left.size(), 7), counted = plain;
    expect(merqyduk_write(&e, plain.data(), n) == answer, name + " is written");
    expect(plain == left, name + " has the profile of its numbers");
    expect(merqyduk_length(&e, n) == answer, name + " tells its length");
    has_count(name, answer, call, [&](uint32_t *count) { return merqyduk_write_counted(&e, counted.data(), n, count); });
    expect(counted == left, name + ", counted, has the profile of its numbers");
    has_count(name + " told", answer, call, [&](uint32_t *count) { return merqyduk_length_counted(&e, n, count); });
}

// The struct writes what the calls write that are given the same numbers, with other makers and models too, and tells the same lengths.
void writes_struct(const std::string &name, const Encoding &e) {
    const Call call = call_of(e);
    Bytes direct(1300, 7);
    const uint32_t length = call(direct.data(), 1200);
    for (size_t n : {size_t(0), size_t(length) - 1, size_t(length), size_t(1200)}) {
        std::fill(direct.begin(), direct.end(), 7);
        const uint32_t answer = call(direct.data(), n);
        for (const Device &device : {Device{0, 0}, next_device()})
            same_struct(name, answer, call, with_device(e, device), left_with(direct, answer, device), n);
    }
    expect(merqyduk_length(&e, SIZE_MAX) == length, name + " tells its length without a bound");
}

// The encoding from a text is the one that was meant, and writes its profile.
void parses(const std::string &text, const Encoding &expected) {
    const std::string name = shown(text);
    answers(text, 0, record_of(expected));
    Encoding e;
    std::memset(&e, 0xa5, sizeof e);
    expect(merqyduk_parse(text.data(), text.size(), &e) == 0, name + " is read");
    expect(std::memcmp(&e, &expected, sizeof e) == 0, name + " has the encoding that was meant");
    writes_struct(name, e);
}

const char *const white_names[] = {"D65", "EER", "DCI"};
const char *const primaries_names[] = {"SRG", "202", "DCI"};
const char *const curve_names[] = {"709", "Lin", "SRG", "PeQ", "DCI", "HLG"};
const char *const intent_names[] = {"Per", "Rel", "Sat", "Abs"};

Encoding named(uint32_t space, uint32_t white, uint32_t primaries, uint32_t curve, uint32_t intent) {
    Encoding e{};
    e.space = space;
    e.white = white;
    e.primaries = primaries;
    e.curve = curve;
    e.intent = intent;
    return e;
}

// Every description without a number, and its encoding.
std::map<std::string, Encoding> named_texts() {
    const std::map<std::string, std::string> common = {{"RGB_D65_SRG_Per_SRG", "sRGB"},
                                                       {"RGB_D65_DCI_Per_SRG", "DisplayP3"},
                                                       {"RGB_D65_202_Rel_PeQ", "Rec2100PQ"},
                                                       {"RGB_D65_202_Rel_HLG", "Rec2100HLG"}};
    std::map<std::string, Encoding> all;
    for (uint32_t i = 0; i < 4; i++) {
        const std::string intent = intent_names[i];
        all["XYB_" + intent] = named(MERQYDUK_SPACE_XYB, 0, 0, 0, i);
        for (uint32_t w = 0; w < 3; w++)
            for (uint32_t c = 0; c < 6; c++) {
                const std::string end = "_" + intent + "_" + curve_names[c];
                all[std::string("Gra_") + white_names[w] + end] = named(MERQYDUK_SPACE_GRAY, w, 0, c, i);
                for (uint32_t p = 0; p < 3; p++) {
                    const std::string text = std::string("RGB_") + white_names[w] + "_" + primaries_names[p] + end;
                    all[common.count(text) ? common.at(text) : text] = named(MERQYDUK_SPACE_RGB, w, p, c, i);
                }
            }
    }
    for (const auto &name : common) refuses_text(name.first, 51);
    return all;
}

// Each is read; so is what the profile says that it leads to. No text is read that differs from one by a byte put in, taken out or changed, or by its
// end cut off, unless it is another of them.
void named_encodings() {
    const std::map<std::string, Encoding> all = named_texts();
    expect(all.size() == 3 * 3 * 6 * 4 + 3 * 6 * 4 + 4, "the named encodings");
    const auto right = [&](const std::string &typed) {
        const auto found = all.find(typed);
        uint8_t record[41];
        if (found == all.end()) return parse(typed, record, sizeof record) == 51;
        return parse(typed, record, sizeof record) == 0 && Bytes(record, record + 41) == record_of(found->second);
    };
    for (const auto &known : all) {
        const std::string &typed = known.first;
        parses(typed, known.second);
        Bytes profile(1200);
        profile.resize(merqyduk_write(&known.second, profile.data(), profile.size()));
        if (profile.size() >= MERQYDUK_MIN_PROFILE)
            expect(text(profile) == typed, shown(typed) + " is the text of its profile");
        bool all_right = true;
        for (size_t i = 0; i <= typed.size(); i++) {
            const std::string front = typed.substr(0, i), rest = typed.substr(i);
            all_right = all_right && right(front);
            if (!rest.empty()) all_right = all_right && right(front + rest.substr(1));
            for (int c = 0; c < 256; c++) {
                all_right = all_right && right(front + char(c) + rest);
                if (!rest.empty()) all_right = all_right && right(front + char(c) + rest.substr(1));
            }
        }
        expect(all_right, shown(typed) + " with a byte more, less or changed");
    }
    bool all_refused = true;
    for (int n = 0; n < 65536; n++) {
        uint8_t record[41];
        const uint8_t two[] = {uint8_t(n >> 8), uint8_t(n)};
        all_refused = all_refused && merqyduk_parse_description(two, 2, record, sizeof record) == 51 &&
                      merqyduk_parse_description(two, 1, record, sizeof record) == 51;
    }
    expect(all_refused, "no text of one or two bytes");
}

// ---- typed numbers

// Numbers of one's own by their texts, in the order of `float_members`: an RGB text, and a gray text of the first two and the last.
using Numbers = std::vector<std::string>;

std::string rgb_text(const Numbers &n) {
    return "RGB_" + n[0] + ";" + n[1] + "_" + n[2] + "," + n[3] + ";" + n[4] + "," + n[5] + ";" + n[6] + "," + n[7] +
           "_Rel_g" + n[8];
}

std::string gray_text(const Numbers &n) { return "Gra_" + n[0] + ";" + n[1] + "_Sat_g" + n[8]; }

Encoding rgb_encoding(const std::vector<uint32_t> &bits) {
    Encoding e = named(MERQYDUK_SPACE_RGB, MERQYDUK_WHITE_OWN, MERQYDUK_PRIMARIES_OWN, MERQYDUK_CURVE_GAMMA, 1);
    for (size_t i = 0; i < 9; i++) e.*float_members()[i] = float_of(bits[i]);
    return e;
}

Encoding gray_encoding(const std::vector<uint32_t> &bits) {
    Encoding e = named(MERQYDUK_SPACE_GRAY, MERQYDUK_WHITE_OWN, 0, MERQYDUK_CURVE_GAMMA, 2);
    e.wx = float_of(bits[0]);
    e.wy = float_of(bits[1]);
    e.gamma = float_of(bits[8]);
    return e;
}

// Numbers that differ, so that two exchanged would be seen.
const Numbers usual = {"0.3100000", "0.3200000", "0.6400000", "0.3300000", "0.3000000",
                       "0.6000000", "2.1500000", "1.2600000", "0.4500000"};
const std::vector<uint32_t> usual_bits = {0x3e9eb852, 0x3ea3d70a, 0x3f23d70a, 0x3ea8f5c3, 0x3e99999a,
                                          0x3f19999a, 0x4009999a, 0x3fa147ae, 0x3ee66666};

void good_numbers() {
    struct Number {
        const char *text;
        uint32_t bits;
    };
    // Among them pairs at each side of the half between two floats, at most 7 millionths of their distance from it.
    const Number numbers[] = {
        {"0.0000000", 0x00000000},  {"-0.0000000", 0x80000000}, {"0.0000001", 0x33d6bf95},  {"-0.0000001", 0xb3d6bf95},
        {"0.3127000", 0x3ea01a37},  {"0.3290000", 0x3ea872b0},  {"0.3333333", 0x3eaaaaaa},  {"0.9999999", 0x3f7ffffe},
        {"1.0000000", 0x3f800000},  {"-1.0000000", 0xbf800000}, {"9.9999999", 0x41200000},  {"10.0000000", 0x41200000},
        {"16.0000009", 0x41800000}, {"16.0000010", 0x41800001}, {"12.3456789", 0x414587e7}, {"-12.3456789", 0xc14587e7},
        {"99.9999961", 0x42c7ffff}, {"99.9999962", 0x42c80000}, {"99.9999999", 0x42c80000}, {"-99.9999999", 0xc2c80000},
        {"64.0013237", 0x428000ae}, {"64.0064888", 0x42800352}, {"8.0070014", 0x41001cae},  {"8.0008111", 0x41000352},
        {"1.0028283", 0x3f805cae},  {"1.0049842", 0x3f80a352},  {"0.2526602", 0x3e815cae},  {"0.2551523", 0x3e82a352},
        {"0.0374419", 0x3d195cae},  {"0.0328706", 0x3d06a352},
    };
    for (const Number &number : numbers)
        for (size_t i = 0; i < 9; i++) {
            Numbers texts = usual;
            texts[i] = number.text;
            std::vector<uint32_t> bits = usual_bits;
            bits[i] = number.bits;
            const bool zero_gamma = i == 8 && number.bits % 0x80000000u == 0;
            if (zero_gamma) refuses_text(rgb_text(texts), 52);
            else parses(rgb_text(texts), rgb_encoding(bits));
            if (i >= 2 && i < 8) continue;
            if (zero_gamma) refuses_text(gray_text(texts), 52);
            else parses(gray_text(texts), gray_encoding(bits));
        }
    parses(rgb_text(Numbers(9, "-99.9999999")), rgb_encoding(std::vector<uint32_t>(9, 0xc2c80000)));
}

void bad_numbers() {
    const std::string numbers[] = {"", "-", ".", "0", "1", "1.", "-1.", ".5", ".5000000", "-.5000000", "0.", "0.000000", "0.00000000",
                                   "0.500000", "0.50000000", "1.000000", "-1.00000000", "100.0000000", "999.9999999",
                                   "00.0000000", "00.5000000", "01.0000000", "-00.0000000", "-01.0000000", "000.0000000",
                                   "+0.5000000", "+10.0000000", "--0.5000000", "-+0.5000000", "0.-5000000", "0.5000000-",
                                   "0,5000000", "0..500000", "0.5.00000", "0.500000e", "5e-0000000", "5.000000e1", "0x0.500000",
                                   "inf", "-inf", "Inf", "infinity", "NaN", "nan", "-NaN", "D65", "0.50000 0", " 0.5000000",
                                   "0.5000000 ", "0. 5000000", "0_5000000", "0.500000\xb2", "\xef\xbc\x90.5000000",
                                   "0.5\x80\x80\x80\x80\x80\x80", std::string("0.500000\0", 9),
                                   std::string("0.5000000\0", 10), std::string("\0" "0.5000000", 10), "0.5000000\n"};
    for (const std::string &number : numbers)
        for (size_t i = 0; i < 9; i++) {
            Numbers texts = usual;
            texts[i] = number;
            // A gamma of zero is not seen in a text that is no description.
            refuses_text(rgb_text(texts), 51);
            if (i != 8) {
                texts[8] = "0.0000000";
                refuses_text(rgb_text(texts), 51);
            }
            if (i < 2 || i == 8) refuses_text(gray_text(texts), 51);
        }
}

// The usual numbers with a byte put in, taken out or changed, one at a time. The C library has the nearest float.
void changed_numbers() {
    const std::regex form("-?(0|[1-9][0-9]?)\\.[0-9]{7}");
    for (size_t place = 0; place < 9; place++) {
        Numbers texts = usual;
        std::vector<uint32_t> bits = usual_bits;
        int accepted = 0;
        bool all_right = true;
        const auto right = [&](const std::string &number) {
            texts[place] = number;
            uint8_t record[41];
            const uint32_t answer = parse(rgb_text(texts), record, sizeof record);
            if (!std::regex_match(number, form)) return answer == 51;
            const float value = std::strtof(number.c_str(), nullptr);
            std::memcpy(&bits[place], &value, sizeof value);
            accepted++;
            return answer == 0 && Bytes(record, record + 41) == record_of(rgb_encoding(bits));
        };
        for (size_t i = 0; i <= usual[place].size(); i++) {
            const std::string front = usual[place].substr(0, i), rest = usual[place].substr(i);
            if (!rest.empty()) all_right = right(front + rest.substr(1)) && all_right;
            for (int c = 0; c < 256; c++) {
                all_right = right(front + char(c) + rest) && all_right;
                if (!rest.empty()) all_right = right(front + char(c) + rest.substr(1)) && all_right;
            }
        }
        expect(all_right, "number " + std::to_string(place) + " with a byte more, less or changed");
        // Eight digits are changed to ten each and the point to itself; a minus or one of nine digits is put before the whole digit, and ten behind it
        // unless it is 0.
        expect(accepted == 80 + 1 + 1 + 9 + (usual[place][0] == '0' ? 0 : 10), "how many of them are numbers");
    }
}

// Numbers by chance, all nine of a text at once, against the C library.
void many_numbers() {
    uint64_t state = 1;
    bool all_right = true;
    for (int n = 0; n < 20000; n++) {
        Numbers texts(9);
        std::vector<uint32_t> bits(9);
        for (size_t i = 0; i < 9; i++) {
            state = state * 6364136223846793005u + 1442695040888963407u;
            const uint32_t whole = uint32_t(state >> 33) % (n % 2 == 0 ? 10000000 : 1000000000), minus = uint32_t(state >> 32) & 1;
            char letters[16];
            std::snprintf(letters, sizeof letters, "%s%u.%07u", minus ? "-" : "", whole / 10000000, whole % 10000000);
            texts[i] = letters;
            const float value = std::strtof(letters, nullptr);
            std::memcpy(&bits[i], &value, sizeof value);
        }
        uint8_t record[41];
        all_right = all_right && parse(rgb_text(texts), record, sizeof record) == 0 &&
                    Bytes(record, record + 41) == record_of(rgb_encoding(bits)) &&
                    parse(gray_text(texts), record, sizeof record) == 0 &&
                    Bytes(record, record + 41) == record_of(gray_encoding(bits));
    }
    expect(all_right, "numbers by chance");
}

// ---- texts that mix names and numbers, and texts that are none

void mixed_texts() {
    Encoding e = named(MERQYDUK_SPACE_RGB, MERQYDUK_WHITE_OWN, MERQYDUK_PRIMARIES_SRGB, MERQYDUK_CURVE_SRGB, 0);
    e.wx = float_of(0x3ea01a37);
    e.wy = float_of(0x3ea872b0);
    // The white of D65 by its numbers is an own white, and the text no common name.
    parses("RGB_0.3127000;0.3290000_SRG_Per_SRG", e);
    e.wx = float_of(0x80000000);
    e.wy = float_of(0x3f800000);
    parses("RGB_-0.0000000;1.0000000_SRG_Per_SRG", e);
    e.curve = MERQYDUK_CURVE_HLG;
    e.intent = MERQYDUK_INTENT_ABSOLUTE;
    parses("RGB_-0.0000000;1.0000000_SRG_Abs_HLG", e);
    e.space = MERQYDUK_SPACE_GRAY;
    parses("Gra_-0.0000000;1.0000000_Abs_HLG", e);

    e = named(MERQYDUK_SPACE_RGB, MERQYDUK_WHITE_E, MERQYDUK_PRIMARIES_P3, MERQYDUK_CURVE_GAMMA, 2);
    e.gamma = float_of(0x3ee8ba30);
    parses("RGB_EER_DCI_Sat_g0.4545455", e);
    e.gamma = float_of(0xc00ccccd);
    parses("RGB_EER_DCI_Sat_g-2.2000000", e);
    e.space = MERQYDUK_SPACE_GRAY;
    e.primaries = 0;
    parses("Gra_EER_Sat_g-2.2000000", e);

    e = named(MERQYDUK_SPACE_RGB, MERQYDUK_WHITE_D65, MERQYDUK_PRIMARIES_OWN, MERQYDUK_CURVE_PQ, 1);
    for (size_t i = 2; i < 8; i++) e.*float_members()[i] = float_of(usual_bits[i]);
    parses("RGB_D65_0.6400000,0.3300000;0.3000000,0.6000000;2.1500000,1.2600000_Rel_PeQ", e);

    // 52 in a description only.
    for (const char *text : {"Gra_D65_Per_g0.0000000", "Gra_DCI_Rel_g-0.0000000", "RGB_D65_SRG_Per_g0.0000000",
                             "RGB_EER_202_Abs_g-0.0000000", "RGB_D65_DCI_Sat_g0.0000000"})
        refuses_text(text, 52);
    for (const char *text : {"Gra_D65_Per_g0.0000000 ", " Gra_D65_Per_g0.0000000", "Gra_D66_Per_g0.0000000", "Gra_D65_g0.0000000",
                             "Gra_D65_SRG_Per_g0.0000000", "RGB_D65_Per_g0.0000000", "XYB_Per_g0.0000000", "g0.0000000",
                             "Gra_D65_Per_g00.0000000", "Gra_D65_Per_G0.0000000", "Gra_D65_Per_0.0000000", "Gra_D65_Per_g0.0000000_"})
        refuses_text(text, 51);
}

void no_descriptions() {
    const std::string texts[] = {
        // a common name with a letter more or less, in another case, or with blanks
        "", " ", "sRG", "sRGBs", "ssRGB", "sRGB ", " sRGB", "\tsRGB", "sRGB\n", "sRGB\r\n", "srgb", "SRGB", "sRgb", "RGB", "DisplayP",
        "DisplayP3D", "DisplayP4", "displayP3", "DISPLAYP3", "Display P3", "Rec2100", "Rec2100P", "Rec2100PQ1", "Rec2100pq",
        "Rec2100Pq", "rec2100PQ", "Rec2100HL", "Rec2100HLGG", "Rec2100hlg", "Rec2100PQRec2100HLG", "sRGB_Rel", "RGB_sRGB",
        // NULs and bytes above 127
        std::string("sRGB\0", 5), std::string("\0sRGB", 5), std::string("sR\0GB", 5), std::string("sRG\0", 4), std::string(1, '\0'),
        std::string("RGB_D65_SRG_Rel_Lin\0", 20), std::string("RGB_D65\0SRG_Rel_Lin", 19), "sRG\xc2", "\xf3RGB", "\xff",
        "\xef\xbb\xbfsRGB", "RGB_D65_SRG_Rel_Li\xee",
        // parts missing, in another order, too many, or of another kind
        "RGB_", "RGB__", "RGB____", "RGB_D65", "RGB_D65_SRG", "RGB_D65_SRG_Rel", "RGB_D65_SRG_Rel_", "RGB_D65_Rel_Lin", "RGB_SRG_Rel_Lin",
        "RGB_D65_SRG_Lin_Rel", "RGB_SRG_D65_Rel_Lin", "RGB_D65_SRG_Rel_Lin_", "_RGB_D65_SRG_Rel_Lin", "RGB_D65_SRG_Rel_Lin_Lin",
        "RGB__D65_SRG_Rel_Lin", "RGB D65 SRG Rel Lin", "RGB-D65-SRG-Rel-Lin", "RGBD65SRGRelLin", "RGB_D65_SRG_Rel_LinRGB_D65_SRG_Rel_Lin",
        "rgb_d65_srg_rel_lin", "RGB_D65_SRG_REL_LIN", "RGB_D65_SRG_Rel_lin", "Rgb_D65_SRG_Rel_Lin", "CMY_D65_SRG_Rel_Lin",
        "RGB_D50_SRG_Rel_Lin", "RGB_E_SRG_Rel_Lin", "RGB_EER_P3_Rel_Lin", "RGB_D65_SRGB_Rel_Lin", "RGB_D65_2020_Rel_Lin",
        "RGB_D65_EER_Rel_Lin", "RGB_SRG_SRG_Rel_Lin", "RGB_202_SRG_Rel_Lin", "RGB_D65_709_Rel_Lin", "RGB_D65_SRG_Lin_Lin",
        "RGB_D65_SRG_Rel_202", "RGB_D65_SRG_Rel_D65", "RGB_D65_SRG_Rel_Rel", "RGB_D65_SRG_Rel_g", "RGB_D65_SRG_Rel_gLin",
        "RGB_D65_SRG_Rel_PQ", "RGB_D65_SRG_Rel_Lin ", " RGB_D65_SRG_Rel_Lin", "RGB_D65_SRG_Relative_Lin", "RGB_D65_SRG_Rel_Linear",
        "Gra", "Gra_", "Gra_D65", "Gra_D65_Rel", "Gra_D65_Rel_", "Gra_Rel_Lin", "Gra_D65_SRG_Rel_Lin", "Gra_D65_Rel_Lin_", "gra_D65_Rel_Lin",
        "Gray_D65_Rel_Lin", "GRA_D65_Rel_Lin", "XYB", "XYB_", "XYB_per", "XYB_Perc", "XYB_Per_", "XYB_D65_Per", "XYB_Per_SRG", "xyb_Per",
        "XYB_Per ", "XYB_PerXYB_Per",
        // other separators, and too few or too many numbers
        "Gra_0.3100000,0.3200000_Rel_Lin", "Gra_0.3100000_Rel_Lin", "Gra_0.3100000;_Rel_Lin", "Gra_;0.3200000_Rel_Lin", "Gra_;_Rel_Lin",
        "Gra_0.3100000;0.3200000;0.3300000_Rel_Lin", "Gra_0.3100000 0.3200000_Rel_Lin", "Gra_(0.3100000;0.3200000)_Rel_Lin",
        "RGB_D65_0.6400000;0.3300000,0.3000000;0.6000000,0.1500000;0.0600000_Rel_Lin",
        "RGB_D65_0.6400000;0.3300000;0.3000000;0.6000000;0.1500000;0.0600000_Rel_Lin",
        "RGB_D65_0.6400000,0.3300000,0.3000000,0.6000000,0.1500000,0.0600000_Rel_Lin",
        "RGB_D65_0.6400000,0.3300000;0.3000000,0.6000000_Rel_Lin", "RGB_D65_0.6400000,0.3300000;0.3000000,0.6000000;0.1500000_Rel_Lin",
        "RGB_D65_0.6400000,0.3300000;0.3000000,0.6000000;0.1500000,0.0600000;_Rel_Lin",
        "RGB_D65_0.6400000,0.3300000;0.3000000,0.6000000;0.1500000,0.0600000;0.1500000,0.0600000_Rel_Lin",
        "RGB_D65_SRG;SRG;SRG_Rel_Lin", "RGB_D65,D65_SRG_Rel_Lin", "RGB_D65;D65_SRG_Rel_Lin",
    };
    for (const std::string &text : texts) refuses_text(text, 51);
    expect(merqyduk_parse_description(nullptr, 0, nullptr, 0) == 51, "no text and no record");
    // Longer than any description, and past the pages of Guarded.
    uint8_t record[41];
    expect(parse(std::string(1000000, 'R'), record, sizeof record) == 51, "a million letters");
    expect(parse("RGB_D65_SRG_Rel_Lin" + std::string(1000000, ' '), record, sizeof record) == 51, "a million blanks");
    expect(parse("Gra_D65_Rel_g0." + std::string(1000000, '0'), record, sizeof record) == 51, "a million digits");
}

// ---- the struct by itself

Call struct_call(const Encoding &e) {
    return {[=](uint8_t *out, size_t n) { return merqyduk_write(&e, out, n); },
            [=](size_t n) { return merqyduk_length(&e, n); },
            [=](uint8_t *out, size_t n, uint32_t *count) { return merqyduk_write_counted(&e, out, n, count); },
            [=](size_t n, uint32_t *count) { return merqyduk_length_counted(&e, n, count); },
            0,
            [=](Device device, uint8_t *out, size_t n) {
                const Encoding its = with_device(e, device);
                return merqyduk_write(&its, out, n);
            },
            [=](Device device, uint8_t *out, size_t n, uint32_t *count) {
                const Encoding its = with_device(e, device);
                return merqyduk_write_counted(&its, out, n, count);
            }};
}

void encoding_structs() {
    Encoding e, before;
    std::memset(&e, 0xa5, sizeof e);
    before = e;
    for (int space = 0; space < 256; space++) {
        Bytes record(41);
        for (size_t i = 0; i < 41; i++) record[i] = uint8_t(17 * i + 3);
        record[0] = uint8_t(space);
        e = before;
        const bool known = space >= 1 && space <= 3;
        expect(merqyduk_encoding_from_record(record.data(), &e) == (known ? 0u : 43u), "a record of space " + std::to_string(space));
        if (known) expect(record_of(e) == record && e.maker == 0 && e.model == 0 && e.adapted == 0, "a record has all its bytes in the struct");
        else expect(std::memcmp(&e, &before, sizeof e) == 0, "a record without meaning leaves the struct unchanged");
    }
    // Without a meaning is first the space, even where the other numbers have none.
    for (uint32_t space : {0u, 4u, 255u, 257u, 0xffffffffu}) {
        for (uint32_t other : {0u, 9u}) {
            e = named(space, other, other, other, other);
            e.adapted = other;
            refuses("a struct of space " + std::to_string(space), 43, struct_call(e));
        }
    }
    // What a space does not use is not read.
    const auto tells_length = [&](const std::string &name, uint32_t answer) {
        expect(merqyduk_length(&e, 1200) == answer, name);
        has_count(name, answer, call_of(e), [&](uint32_t *count) { return merqyduk_length_counted(&e, 1200, count); });
    };
    e = named(MERQYDUK_SPACE_GRAY, 0, 9, 2, 1);
    tells_length("gray with primaries that have no meaning", 328);
    for (uint32_t intent = 0; intent < 4; intent++) {
        e = named(MERQYDUK_SPACE_XYB, 9, 9, 9, intent);
        tells_length("XYB with a white that has no meaning", 720);
    }
    e = named(MERQYDUK_SPACE_RGB, 0, 9, 2, 1);
    tells_length("RGB with primaries that have no meaning", 43);
    // The mark is read for gray alone.
    for (uint32_t adapted : {1u, 2u, 0xffffffffu}) {
        e = named(MERQYDUK_SPACE_RGB, 0, 0, 2, 0);
        e.adapted = adapted;
        tells_length("RGB with a mark", 504);
        e = named(MERQYDUK_SPACE_XYB, 0, 0, 0, 0);
        e.adapted = adapted;
        tells_length("XYB with a mark", 720);
        e = named(MERQYDUK_SPACE_GRAY, 0, 0, 2, 1);
        e.adapted = adapted;
        if (adapted == 1) tells_length("gray with a mark", 384);
        else refuses("a struct of gray with the mark " + std::to_string(adapted), 43, struct_call(e));
    }
}

void typed_texts() {
    named_encodings();
    good_numbers();
    bad_numbers();
    changed_numbers();
    many_numbers();
    mixed_texts();
    no_descriptions();
    encoding_structs();
}

// ---- numbers that were rounded, by the floats that the Rust makes the fixed numbers from. Each operation is rounded once, in its order.

using Floats = std::vector<float>;

// Times 65536 is exact in double.
bool whole(float value) { return std::fmod(double(value) * 65536, 1) == 0; }

uint32_t not_whole(const Floats &floats) { return uint32_t(floats.size()) - uint32_t(std::count_if(floats.begin(), floats.end(), whole)); }

// x and y of the white.
Floats white_of(const Encoding &e) {
    const Floats own = {e.wx, e.wy}, all[] = {{0.3127f, 0.3290f}, {1.0f / 3.0f, 1.0f / 3.0f}, {0.314f, 0.351f}, own};
    return all[e.white];
}

// x and y of red, green and blue.
Floats primaries_of(const Encoding &e) {
    const Floats own = {e.rx, e.ry, e.gx, e.gy, e.bx, e.by};
    const Floats all[] = {{0.6399987f, 0.33001015f, 0.3000038f, 0.60000336f, 0.15000205f, 0.059997204f},
                          {0.708f, 0.292f, 0.170f, 0.797f, 0.131f, 0.046f},
                          {0.680f, 0.320f, 0.265f, 0.690f, 0.150f, 0.060f},
                          own};
    return all[e.primaries];
}

Floats curve_floats(uint32_t curve, float gamma) {
    switch (curve) {
    case MERQYDUK_CURVE_BT709: return {1.0f / 0.45f, 1.0f / 1.099f, 0.099f / 1.099f, 1.0f / 4.5f, 0.081f};
    case MERQYDUK_CURVE_LINEAR: return {1, 1, 0, 1, 0};
    case MERQYDUK_CURVE_SRGB: return {2.4f, 1.0f / 1.055f, 0.055f / 1.055f, 1.0f / 12.92f, 0.04045f};
    case MERQYDUK_CURVE_DCI: return {2.6f, 1, 0, 1, 0};
    default: return {1.0f / gamma};
    }
}

// Of gray that is not adapted.
Floats gray_floats(const Encoding &e) {
    const Floats white = white_of(e);
    const float factor = 1.0f / white[1];
    return {white[0] * factor, 1, (1.0f - white[0] - white[1]) * factor};
}

using Vector = std::array<double, 3>;
using Matrix = std::array<Vector, 3>; // by rows

double dot(const Vector &a, const Vector &b) { return a[0] * b[0] + a[1] * b[1] + a[2] * b[2]; }

Vector applied(const Matrix &m, const Vector &v) { return {dot(m[0], v), dot(m[1], v), dot(m[2], v)}; }

Matrix product(const Matrix &a, const Matrix &b) {
    Matrix made;
    for (size_t r = 0; r < 3; r++)
        for (size_t c = 0; c < 3; c++) made[r][c] = dot(a[r], {b[0][c], b[1][c], b[2][c]});
    return made;
}

// The cofactors the other way round, times the reciprocal of the determinant.
Matrix inverse(const Matrix &m) {
    Matrix cofactors, made;
    for (size_t r = 0; r < 3; r++)
        for (size_t c = 0; c < 3; c++) {
            const size_t r0 = r == 0 ? 1 : 0, r1 = r == 2 ? 1 : 2, c0 = c == 0 ? 1 : 0, c1 = c == 2 ? 1 : 2;
            const double difference = m[r0][c0] * m[r1][c1] - m[r0][c1] * m[r1][c0];
            cofactors[r][c] = (r + c) % 2 == 0 ? difference : -difference;
        }
    const double reciprocal = 1 / dot(m[0], cofactors[0]);
    for (size_t r = 0; r < 3; r++)
        for (size_t c = 0; c < 3; c++) made[r][c] = cofactors[c][r] * reciprocal;
    return made;
}

Vector white_xyz(const Floats &white) {
    const double x = white[0], y = white[1];
    return {x / y, 1, (1 - x - y) / y};
}

// The adaptation of a white to D50, which here is another than that of wtpt.
Matrix adaptation(const Vector &white) {
    const Matrix bradford = {Vector{0.8951, 0.2664, -0.1614}, Vector{-0.7502, 1.7135, 0.0367}, Vector{0.0389, -0.0685, 1.0296}};
    const Matrix back = {Vector{0.9869929, -0.1470543, 0.1599627}, Vector{0.4323053, 0.5183603, 0.0492912},
                         Vector{-0.0085287, 0.0400428, 0.9684867}};
    const Vector from = applied(bradford, white), to = applied(bradford, {0.96422, 1, 0.82521});
    Matrix scaled = bradford;
    for (size_t r = 0; r < 3; r++)
        for (double &entry : scaled[r]) entry *= to[r] / from[r];
    return product(back, scaled);
}

// The matrix whose rows are the columns of the other.
Matrix turned(const Matrix &m) {
    Matrix made;
    for (size_t r = 0; r < 3; r++)
        for (size_t c = 0; c < 3; c++) made[r][c] = m[c][r];
    return made;
}

// The red, the green and the blue column.
Matrix columns_of(const Floats &xy, const Vector &white) {
    Matrix primaries;
    for (size_t c = 0; c < 3; c++) {
        const double x = xy[2 * c], y = xy[2 * c + 1];
        primaries[0][c] = x;
        primaries[1][c] = y;
        primaries[2][c] = 1 - x - y;
    }
    const Vector scales = applied(inverse(primaries), white);
    for (Vector &row : primaries)
        for (size_t c = 0; c < 3; c++) row[c] *= scales[c];
    return turned(product(adaptation(white), primaries));
}

void narrow(const Matrix &m, Floats &floats) {
    for (const Vector &row : m)
        for (double entry : row) floats.push_back(float(entry));
}

const Floats d50 = {0.964203f, 1, 0.824905f};

// D50, and the adaptation to it.
Floats adapted_floats(const Encoding &e) {
    Floats floats = d50;
    narrow(adaptation(white_xyz(white_of(e))), floats);
    return floats;
}

Floats rgb_floats(const Encoding &e) {
    Floats floats = adapted_floats(e);
    narrow(columns_of(primaries_of(e), white_xyz(white_of(e))), floats);
    return floats;
}

// wtpt; chad of D65; of A2B0 three curves with the gamma 1, the M curves, the matrix and its intercepts; of B2A0 three curves with the gamma 1.
Floats xyb_floats() {
    const float offset[] = {0.015386134f, 0, 0.27770459f}, scale[] = {22.995788804f, 1.183000077f, 1.502141333f};
    const float offsets[] = {offset[0] + offset[1], offset[1] - offset[0] + 1.0f / scale[0], offset[1] + offset[2]};
    const float first = scale[0] * scale[1] / (scale[0] + scale[1]), last = scale[1] * scale[2] / (scale[1] + scale[2]);
    const float scales[] = {first, first, last}, bias = 0.0037930732552754493f, root = float(std::cbrt(double(bias)));
    const Matrix matrix = {Vector{1.5170095, -1.1065225, 0.071623}, Vector{-0.050022, 0.5683655, -0.018344},
                           Vector{-1.387676, 1.1145555, 0.6857255}};
    Floats floats = adapted_floats(named(MERQYDUK_SPACE_XYB, MERQYDUK_WHITE_D65, 0, 0, 0));
    floats.insert(floats.end(), 3, 1);
    for (size_t i = 0; i < 3; i++) {
        const float b = -offsets[i] + root;
        floats.insert(floats.end(), {3, 1.0f / scales[i], b, 0, std::max(-b * scales[i], 0.0f)});
    }
    narrow(matrix, floats);
    for (const Vector &row : matrix) floats.push_back(float(dot(row, {-double(bias), -double(bias), -double(bias)})));
    floats.insert(floats.end(), 3, 1);
    return floats;
}

Floats floats_of(const Encoding &e) {
    if (e.space == MERQYDUK_SPACE_XYB) return xyb_floats();
    Floats floats = e.space == MERQYDUK_SPACE_RGB ? rgb_floats(e) : e.adapted == 1 ? adapted_floats(e) : gray_floats(e);
    for (float value : curve_floats(e.curve, e.gamma)) floats.push_back(value);
    return floats;
}

// The fixed numbers of a profile in the order of the file, a curve of three colors once.
std::vector<int32_t> fixed_numbers(const Bytes &f) {
    std::vector<int32_t> numbers;
    const auto add = [&](const char *signature, size_t at, size_t count) {
        const Bytes e = element(f, signature);
        for (size_t i = 0; i < count && at + 4 * i < e.size(); i++) numbers.push_back(int32_t(word(e, at + 4 * i)));
    };
    for (const char *signature : {"wtpt", "chad", "rXYZ", "gXYZ", "bXYZ"}) add(signature, 8, 9);
    for (const char *signature : {"rTRC", "kTRC"}) add(signature, 12, 5);
    for (const char *signature : {"A2B0", "B2A0"}) {
        for (size_t at : {32, 48, 64}) add(signature, at + 12, 1);
        for (size_t at : {148, 180, 212}) add(signature, at + 12, 5);
        add(signature, 244, 12);
    }
    return numbers;
}

// Whether the counted calls answer and write what the others do, and tell how many of the floats are not whole; these floats have the fixed numbers
// of the profile. Those that are accepted are counted in `seen`.
bool counted_right(const Encoding &e, std::map<uint32_t, int> &seen) {
    const Call call = call_of(e);
    Bytes plain(1200, 7), counted = plain;
    uint32_t written = 77, told = 77;
    const uint32_t answer = call(plain.data(), plain.size());
    if (call.length(plain.size()) != answer || call.length_counted(plain.size(), &told) != answer ||
        call.write_counted(counted.data(), counted.size(), &written) != answer || counted != plain || written != told)
        return false;
    if (answer < MERQYDUK_MIN_PROFILE) return told == 77;
    const Floats floats = floats_of(e);
    std::vector<int32_t> fixed;
    for (float value : floats) fixed.push_back(int32_t(std::lround(double(value) * 65536)));
    seen[told]++;
    plain.resize(answer);
    return told == not_whole(floats) && floats.size() == call.numbers && fixed == fixed_numbers(plain);
}

void known_gray_counts() {
    const float tiny = std::numeric_limits<float>::denorm_min(), endless = std::numeric_limits<float>::infinity();
    const float least = 1.0f / 65536, most = 32767.994140625f;
    const struct {
        float wx, wy;
        uint32_t curve;
        float gamma;
        uint32_t count;
    } all[] = {{0.25f, 0.5f, 6, 0.5f, 0},      {0.25f, 0.5f, 6, 2, 0},       {0.25f, 0.5f, 6, 1, 0},      {0.25f, 0.5f, 6, -2, 0},
               {0.25f, 0.5f, 6, 3, 1},         {0.25f, 0.5f, 6, 0.45f, 1},   {0.25f, 0.5f, 1, 0, 0},      {0.25f, 0.5f, 4, 0, 1},
               {0.25f, 0.5f, 2, 0, 5},         {0.25f, 0.5f, 0, 0, 5},       {0.3127f, 0.3290f, 2, 0, 7}, {0.3127f, 0.3290f, 1, 0, 2},
               // both zeros are whole
               {0, 0.5f, 6, 2, 0},             {-0.0f, 0.5f, 6, 2, 0},       {0, 0.5f, 6, endless, 0},    {0, 0.5f, 6, -endless, 0},
               // what is rounded to 0 is not
               {1e-9f, 0.5f, 6, 2, 1},         {-1e-9f, 0.5f, 6, 2, 1},      {tiny, 0.5f, 6, 2, 1},       {-tiny, 0.5f, 6, 2, 1},
               {0, 0.5f, 6, 1e9f, 1},          {0, 0.5f, 6, -1e9f, 1},       {0, 0.5f, 6, 3e38f, 1},      {1e-9f, 0.5f, 6, 1e9f, 2},
               // the least number that is whole, and halves and quarters of it; Z is 1 - X
               {least / 2, 0.5f, 6, 65536, 0}, {least / 4, 0.5f, 6, 2, 2},   {least / 8, 0.5f, 6, 2, 2},  {0, 0.5f, 6, 131072, 1},
               {-least / 2, 0.5f, 6, 2, 0},    {-least / 4, 0.5f, 6, 2, 2},  {0, 0.5f, 6, 262144, 1},     {0, 0.5f, 6, -131072, 1},
               // large numbers; a float of 128 or more is always whole
               {most / 2, 0.5f, 6, 2, 0},      {-16000, 0.5f, 6, 2, 0},      {0, 0.5f, 6, 1.0f / 16384, 0}, {100.1f, 0.5f, 6, 0.0070f, 0}};
    for (const auto &one : all) {
        const Call call = gray(3, one.wx, one.wy, one.curve, one.gamma, 1);
        const std::string name = "gray of " + std::to_string(one.wx) + " " + std::to_string(one.wy) + " " + std::to_string(one.curve) + " " +
                                 std::to_string(one.gamma);
        uint8_t out[1200];
        expect(call(out, sizeof out) >= MERQYDUK_MIN_PROFILE, name + " is written");
        expect(rounded(call) == one.count, name + ": " + std::to_string(rounded(call)) + " rounded for " + std::to_string(one.count));
        tells(name, call(out, sizeof out), sizeof out, call);
    }
    // What is rounded to 0 is 0 in the profile.
    Bytes profile(1200);
    profile.resize(gray(3, tiny, 0.5f, 6, 1e9f, 1)(profile.data(), profile.size()));
    expect(word(element(profile, "wtpt"), 8) == 0 && word(element(profile, "kTRC"), 12) == 0, "numbers that are rounded to 0");
}

// Another curve changes the count by its own numbers, once for the three colors, and another intent changes nothing.
void other_curves(uint32_t white, uint32_t primaries, Primaries own) {
    const auto count = [&](uint32_t curve, float gamma, uint32_t intent) {
        return rounded(rgb(white, 0.3457f, 0.3585f, primaries, own, curve, gamma, intent));
    };
    const uint32_t others = count(MERQYDUK_CURVE_LINEAR, 0, 0);
    for (uint32_t intent = 0; intent < 4; intent++) {
        for (uint32_t curve : {0u, 1u, 2u, 4u})
            expect(count(curve, 0, intent) == others + not_whole(curve_floats(curve, 0)), "the count of another curve");
        for (float gamma : {0.45f, 0.5f, 2.0f, 3.0f})
            expect(count(MERQYDUK_CURVE_GAMMA, gamma, intent) == others + (whole(1 / gamma) ? 0 : 1), "the count of another gamma");
    }
    expect(count(2, 0, 1) == others + 5 && count(0, 0, 1) == others + 5 && count(4, 0, 1) == others + 1, "the counts of curves");
}

void named_counts() {
    std::map<uint32_t, int> seen;
    for (uint32_t curve = 0; curve < 7; curve++)
        for (uint32_t intent = 0; intent < 4; intent++) {
            for (uint32_t white = 0; white < 3; white++) {
                Encoding e = named(MERQYDUK_SPACE_GRAY, white, 0, curve, intent);
                e.gamma = 0.45f;
                expect(counted_right(e, seen), "the count of a named gray white");
                e.adapted = 1;
                expect(counted_right(e, seen), "the count of a named gray white that is adapted");
                for (e.space = MERQYDUK_SPACE_RGB; e.primaries < 3; e.primaries++) expect(counted_right(e, seen), "the count of named primaries");
            }
            expect(counted_right(named(MERQYDUK_SPACE_XYB, 0, 0, curve, intent), seen), "the count of XYB");
        }
    expect(rounded(rgb(0, 0, 0, 0, {}, 2, 0, 0)) == 24, "24 numbers of sRGB were rounded");
    expect(rounded(gray(0, 0, 0, 2, 0, 1)) == 7, "7 numbers of gray were rounded");
    expect(rounded(adapted_gray(1, 0, 0, 0, 2, 0, 1)) == 16, "16 numbers of adapted gray were rounded");
    for (uint32_t intent = 0; intent < 4; intent++) expect(rounded(xyb(intent)) == 30, "30 numbers of XYB were rounded");
    for (uint32_t white = 0; white < 4; white++)
        for (uint32_t primaries = 0; primaries < 4; primaries++) other_curves(white, primaries, {0.69f, 0.31f, 0.21f, 0.71f, 0.14f, 0.05f});
}

// Encodings of a space by chance: coordinates and gammas in range, of few digits, so that some are whole, near zero, so that others become large, and
// any. Those of gray have the mark or have it not.
class Chance {
  public:
    Chance(uint32_t space, uint32_t adapted) : space_(space), adapted_(adapted), state_(space + 3 * adapted) {}

    uint32_t below(size_t n) {
        state_ = state_ * 6364136223846793005u + 1442695040888963407u;
        return uint32_t((state_ >> 32) % n);
    }
    uint32_t any() { return below(size_t(1) << 32); }
    Encoding encoding(uint32_t intent) {
        Encoding e = named(space_, MERQYDUK_WHITE_OWN, MERQYDUK_PRIMARIES_OWN, MERQYDUK_CURVE_GAMMA, intent);
        if (below(8) == 0) e.white = below(3);
        if (below(2) == 0) e.primaries = below(3);
        if (below(2) == 0) e.curve = below(6);
        for (float Encoding::*member : float_members()) e.*member = number();
        e.adapted = adapted_;
        return e;
    }

  private:
    float number() {
        const float in_range = float(below(1 << 24)) / (1 << 24);
        switch (below(8)) {
        case 0: return float(below(257)) / 256;
        case 1: return std::ldexp(1.0f, 4 - int(below(24)));
        case 2: return std::ldexp(in_range, -int(below(20)));
        case 3: return float_of(any());
        default: return in_range;
        }
    }

    uint32_t space_, adapted_;
    uint64_t state_;
};

// A space and its mark, as a message shows them.
std::string shown(uint32_t space, uint32_t adapted) { return "space " + std::to_string(space) + " with the mark " + std::to_string(adapted); }

void counts_by_chance(uint32_t space, uint32_t adapted, const std::vector<uint32_t> &counts) {
    Chance chance(space, adapted);
    std::map<uint32_t, int> seen;
    bool all_right = true;
    for (uint32_t n = 0; n < 200000; n++) all_right = counted_right(chance.encoding(n % 4), seen) && all_right;
    expect(all_right, "counts by chance in " + shown(space, adapted));
    for (uint32_t count : counts)
        expect(seen[count] > 20, "encodings by chance of " + shown(space, adapted) + " with the count " + std::to_string(count));
}

void numbers_that_were_rounded() {
    known_gray_counts();
    named_counts();
    counts_by_chance(MERQYDUK_SPACE_GRAY, 0, {0, 1, 2, 3, 5, 6, 7});
    counts_by_chance(MERQYDUK_SPACE_GRAY, 1, {10, 11, 12, 13, 14, 15, 16});
    counts_by_chance(MERQYDUK_SPACE_RGB, 0, {11, 12, 13, 14, 15, 16, 17, 18, 19, 20, 21, 22, 23, 24, 25});
}

// ---- maker and model by chance

// Whether they change their own bytes and the id alone, and no refusal; and whether the plan that is read has them and is the same else, without an id
// too. The answers are counted.
bool device_right(const Call &call, Device device, std::map<uint32_t, int> &answers) {
    Bytes plain(1200, 7), its = plain;
    const uint32_t answer = call(plain.data(), plain.size());
    answers[answer]++;
    if (call.write_device(device, its.data(), its.size()) != answer || its != left_with(plain, answer, device)) return false;
    if (answer < MERQYDUK_MIN_PROFILE) return true;
    merqyduk_plan plan, its_plan;
    if (merqyduk_read(plain.data(), answer, &plan, sizeof plan) != 0 || merqyduk_read(its.data(), answer, &its_plan, sizeof its_plan) != 0)
        return false;
    plan.maker = device.maker;
    plan.model = device.model;
    its.resize(answer);
    return std::memcmp(&plan, &its_plan, sizeof plan) == 0 && id_right(its, next_id_bit());
}

// Each of `some` is answered at times, and each of `none` never.
void devices_by_chance(uint32_t space, uint32_t adapted, const std::vector<uint32_t> &some, const std::vector<uint32_t> &none) {
    Chance chance(space, adapted);
    std::map<uint32_t, int> answers;
    bool all_right = true;
    for (uint32_t n = 0; n < 20000; n++) {
        const Call call = call_of(chance.encoding(n % 4));
        all_right = device_right(call, {chance.any(), chance.any()}, answers) && all_right;
    }
    expect(all_right, "maker and model by chance in " + shown(space, adapted));
    for (uint32_t answer : some)
        expect(answers[answer] > 20, "encodings by chance of " + shown(space, adapted) + " answered " + std::to_string(answer));
    for (uint32_t answer : none)
        expect(answers.count(answer) == 0, "no encoding by chance of " + shown(space, adapted) + " answered " + std::to_string(answer));
}

// What the call with maker and model writes.
Bytes written(const Call &call, Device device) {
    Bytes f(1200);
    f.resize(call.write_device(device, f.data(), f.size()));
    return f;
}

// ---- XYB with each intent. `files` has the files that were written, by their intents.

// An XYB file with this number for the intent in its header and these three letters for it in its text, and the id that it then has.
Bytes with_intent(const Bytes &xyb, uint32_t intent, const std::string &letters) {
    Bytes f = with_number(xyb, 64, int32_t(intent));
    // The text begins 28 bytes from the start of `desc` on. Before the three letters stand those of XYB_, each in two bytes.
    const size_t at = word(f, 136) + 28 + 2 * 4;
    for (size_t i = 0; i < 3; i++) f[at + 2 * i + 1] = uint8_t(letters[i]);
    return with_id(f);
}

// The Perceptual file is that of the Rust, by its id. Each is this file with an intent, its text and its id, also with maker and model.
void patched_xyb(const std::vector<Bytes> &files) {
    const Bytes id = {0x84, 0x6f, 0xef, 0xe4, 0x5f, 0x6a, 0x1d, 0x3d, 0x51, 0x5e, 0x1a, 0x4d, 0xc9, 0x7f, 0x4b, 0xda};
    expect(std::equal(id.begin(), id.end(), files[0].begin() + 84), "the id of the Perceptual file");
    for (uint32_t intent = 0; intent < 4; intent++) {
        const std::string name = std::string("XYB_") + intent_names[intent];
        const Bytes patched = with_intent(files[0], intent, intent_names[intent]);
        expect(files[intent] == patched, name + " is the Perceptual file with this intent");
        expect(text(files[intent]) == name, name + " is its text");
        for (const Device &device : devices)
            expect(written(xyb(intent), device) == with_device(patched, device), name + " with maker and model is that file with them");
        // `finds` went by the table of each file.
        expect(std::equal(files[0].begin() + 128, files[0].begin() + 204, files[intent].begin() + 128), name + " has the same tags at the same places");
    }
}

// XYB is refused for a number that is no intent, 43, and for a short output, 9. No intent is refused: that was number 2.
void xyb_answers() {
    for (uint32_t intent : {0u, 1u, 2u, 3u, 4u, 5u, 255u, 256u, 257u, 0x1000001u, 0x80000000u, 0x80000001u, 0xffffffffu}) {
        const Call call = xyb(intent);
        bool all_right = true;
        for (size_t n = 0; n <= 1300; n++) {
            const uint32_t expected = intent > 3 ? 43 : n < 720 ? 9 : 720;
            uint8_t out[1300];
            uint32_t count = 0;
            for (uint32_t answer : {call(out, n), call.length(n), call.write_counted(out, n, &count), call.length_counted(n, &count),
                                    call.write_device(next_device(), out, n)})
                all_right = all_right && answer == expected;
        }
        expect(all_right, "XYB with intent " + std::to_string(intent) + " in outputs of all lengths");
    }
}

// Each intent in each place of a job, and each byte for an intent.
void xyb_jobs(const std::vector<Bytes> &files) {
    for (const Bytes &job : {Bytes{0, 0, 4, 0, 1, 2, 3}, Bytes{0, 0, 4, 3, 2, 1, 0}, Bytes{0, 0, 4, 1, 0, 3, 2}}) {
        counts("a job of XYB", 4, job);
        for (size_t i = 0; i < 4; i++)
            expect(writes("an XYB entry", 720, entry(job, i)) == files[job[3 + i]], "an XYB entry has the profile of its intent");
    }
    for (size_t byte = 4; byte < 256; byte++) refuses_job("an XYB intent without meaning", 43, {0, 0, 2, 1, uint8_t(byte)});
}

// The text of another intent than the header's, whatever the id is.
void crossed_texts(const Bytes &perceptual) {
    for (uint32_t intent = 0; intent < 4; intent++)
        for (uint32_t other = 0; other < 4; other++) {
            if (other == intent) continue;
            const std::string name = std::string("XYB_") + intent_names[other] + " in a file of intent " + std::to_string(intent);
            for (const Device &device : {Device{0, 0}, acme}) {
                const Bytes crossed = with_device(with_intent(perceptual, intent, intent_names[other]), device);
                refuses_file(name, 26, crossed);
                refuses_file(name + " without an id", 26, without_id(crossed));
                refuses_file(name + " with another id", 26, with_bit(crossed, next_id_bit()));
            }
        }
}

// The id of the file of another intent: it is of the text.
void crossed_ids(const std::vector<Bytes> &files) {
    for (const Bytes &f : files)
        for (const Bytes &other : files) {
            Bytes crossed = f;
            std::copy(other.begin() + 84, other.begin() + 100, crossed.begin() + 84);
            if (&f != &other) id_of_another("the id of another intent", crossed);
        }
}

// Numbers that are no intent, whatever text and id are.
void unknown_intents(const Bytes &perceptual) {
    for (uint32_t number : {4u, 5u, 6u, 7u, 255u, 256u, 257u, 0x10000u, 0x1000000u, 0x1000003u, 0x7fffffffu, 0x80000000u, 0x80000001u,
                            0xffffffffu})
        for (const std::string letters : {"Per", "Rel", "Sat", "Abs", "Xyz"}) {
            const Bytes f = with_intent(perceptual, number, letters);
            const std::string name = "XYB_" + letters + " in a file of intent " + std::to_string(number);
            refuses_file(name, 24, f);
            refuses_file(name + " without an id", 24, without_id(f));
        }
}

// Each bit past the header changed, by the id that the file then has and without one: 25 in the tag table, 26 in elements and padding.
void xyb_bits(const Bytes &f) {
    bool all_right = true;
    for (size_t bit = 8 * 128; bit < 8 * f.size(); bit++) {
        const Bytes changed = with_id(with_bit(f, bit));
        for (const Bytes &file : {changed, without_id(changed)}) {
            merqyduk_plan plan;
            all_right = all_right && merqyduk_read(file.data(), file.size(), &plan, sizeof plan) == (bit < 8 * 204 ? 25u : 26u);
        }
    }
    expect(all_right, "each bit past the header of " + text(f));
}

void xyb_intents(const std::vector<Bytes> &files) {
    patched_xyb(files);
    xyb_answers();
    xyb_jobs(files);
    crossed_texts(files[0]);
    crossed_ids(files);
    unknown_intents(files[0]);
    for (const Bytes &f : files) {
        header_bits(f, 3);
        xyb_bits(f);
        // The Perceptual file has its turn in `ids` and `segments`.
        if (f == files[0]) continue;
        bad_ids(f);
        for (const Bytes &file : {f, without_id(with_device(f, acme))}) {
            put_into_segments(text(f), file);
            good_segments(text(f), file);
        }
    }
}

// ---- gray adapted to D50

const uint32_t wtpt = 0x77747074, chad = 0x63686164;

// What the finder finds.
Bytes found(const Bytes &f, uint32_t signature) {
    uint32_t offset = 0;
    const uint32_t size = merqyduk_find(f.data(), f.size(), signature, &offset);
    return Bytes(f.begin() + offset, f.begin() + offset + size);
}

using Elements = std::vector<std::pair<std::string, Bytes>>;

// A file with this header, but for the size and the id, and with these tags and elements.
Bytes laid_out(const Bytes &header, const Elements &elements) {
    Bytes f(header.begin(), header.begin() + 128);
    f.resize(132 + 12 * elements.size());
    f = with_number(f, 128, int32_t(elements.size()));
    size_t line = 132;
    for (const auto &one : elements) {
        std::copy(one.first.begin(), one.first.end(), f.begin() + line);
        f = with_number(with_number(f, line + 4, int32_t(f.size())), line + 8, int32_t(one.second.size()));
        f.insert(f.end(), one.second.begin(), one.second.end());
        f.resize((f.size() + 3) / 4 * 4);
        line += 12;
    }
    return with_id(with_number(f, 0, int32_t(f.size())));
}

Elements elements_of(const Bytes &f, const std::vector<std::string> &signatures) {
    Elements all;
    for (const std::string &signature : signatures) all.push_back({signature, element(f, signature.c_str())});
    return all;
}

const std::vector<std::string> adapted_tags = {"desc", "cprt", "wtpt", "chad", "kTRC"};

// The adapted file from parts of a gray file that is not adapted and of an RGB file of the same white.
Bytes spliced(const Bytes &gray_file, const Bytes &rgb_file) {
    Elements all = elements_of(gray_file, adapted_tags);
    for (size_t i : {2, 3}) all[i].second = element(rgb_file, adapted_tags[i].c_str());
    return laid_out(gray_file, all);
}

// An element: four letters, four zero bytes, and numbers.
Bytes element_from(const std::string &type, const std::vector<int32_t> &numbers) {
    Bytes e(type.begin(), type.end());
    e.resize(8 + 4 * numbers.size());
    for (size_t i = 0; i < numbers.size(); i++) e = with_number(e, 8 + 4 * i, numbers[i]);
    return e;
}

// A text as `mluc` with one record, of 12 bytes, in English for the United States.
Bytes text_element(const std::string &letters) {
    Bytes e = element_from("mluc", {1, 12, 0x656e5553, int32_t(2 * letters.size()), 28});
    for (char letter : letters) e.insert(e.end(), {0, uint8_t(letter)});
    return e;
}

// The C library rounds to the nearest, ties to the even digit.
std::string seven_decimals(float value) {
    char letters[64];
    std::snprintf(letters, sizeof letters, "%.7f", double(value));
    return letters;
}

// The description of a gray encoding.
std::string description_of(const Encoding &e) {
    const std::string white = e.white == MERQYDUK_WHITE_OWN ? seven_decimals(e.wx) + ";" + seven_decimals(e.wy) : white_names[e.white];
    const std::string curve = e.curve == MERQYDUK_CURVE_GAMMA ? "g" + seven_decimals(e.gamma) : curve_names[e.curve];
    return "Gra_" + white + "_" + intent_names[e.intent] + "_" + curve;
}

// The adapted file by numbers and letters made here. Header, copyright and curve are those of gray D65 with the same curve and intent.
Bytes by_hand(const Encoding &e) {
    const Bytes d65 = written(gray(MERQYDUK_WHITE_D65, 0, 0, e.curve, e.gamma, e.intent), {0, 0});
    std::vector<int32_t> numbers;
    for (float value : adapted_floats(e)) numbers.push_back(int32_t(std::lround(double(value) * 65536)));
    return laid_out(d65, {{"desc", text_element(description_of(e))},
                          {"cprt", element(d65, "cprt")},
                          {"wtpt", element_from("XYZ ", {63190, 65536, 54061})},
                          {"chad", element_from("sf32", {numbers.begin() + 3, numbers.end()})},
                          {"kTRC", element(d65, "kTRC")}});
}

Encoding adapted_encoding(uint32_t white, float wx, float wy, uint32_t curve, float gamma, uint32_t intent) {
    Encoding e = named(MERQYDUK_SPACE_GRAY, white, 0, curve, intent);
    e.wx = wx;
    e.wy = wy;
    e.gamma = gamma;
    e.adapted = 1;
    return e;
}

Encoding not_adapted(Encoding e) {
    e.adapted = 0;
    return e;
}

// As RGB with the primaries of sRGB.
Encoding as_rgb(Encoding e) {
    e.space = MERQYDUK_SPACE_RGB;
    e.primaries = MERQYDUK_PRIMARIES_SRGB;
    return e;
}

uint32_t answer_of(const Encoding &e) { return call_of(e).length(SIZE_MAX); }

Asked asked_of(const Encoding &e) { return {1, e.intent, e.curve, e.gamma, e.adapted == 1}; }

// An adapted file in all ways; `writes` has each maker and model in turn. Where gray that is not adapted and RGB accept the white too, it is put
// together from their files as well.
Bytes adapted_profile(const std::string &name, const Encoding &e) {
    const Bytes expected = by_hand(e);
    const Bytes f = profile(name, uint32_t(expected.size()), call_of(e), asked_of(e), {{0, 0}, next_device()});
    expect(f == expected, name + " is the file made by hand");
    expect(found(f, wtpt) == element_from("XYZ ", {63190, 65536, 54061}), name + " has D50 for its white");
    expect(found(f, chad).size() == 44, name + " has its adaptation");
    writes_struct(name, e);
    const Bytes plain = written(call_of(not_adapted(e)), {0, 0}), rgb_file = written(call_of(as_rgb(e)), {0, 0});
    if (plain.size() < MERQYDUK_MIN_PROFILE || rgb_file.size() < MERQYDUK_MIN_PROFILE) return f;
    expect(f == spliced(plain, rgb_file), name + " is gray with the white and the adaptation of RGB");
    expect(f.size() == plain.size() + 56, name + " has a line of the table and an element more");
    expect(found(f, chad) == found(rgb_file, chad), name + " has the adaptation of RGB");
    return f;
}

void adapted_profiles() {
    const float endless = std::numeric_limits<float>::infinity();
    const struct {
        uint32_t kind;
        float x, y;
    } whites[] = {{0, 0, 0}, {1, 0, 0}, {2, 0, 0}, {3, 0.3457f, 0.3585f}, {3, 0.25f, 0.5f}, {3, 0, 1}, {3, 1, 1}};
    const struct {
        uint32_t kind;
        float gamma;
    } curves[] = {{0, 0}, {1, 0}, {2, 0}, {4, 0}, {6, 0.45f}, {6, -2.5f}, {6, endless}};
    for (const auto &white : whites)
        for (const auto &curve : curves)
            for (uint32_t intent = 0; intent < 4; intent++) {
                const Encoding e = adapted_encoding(white.kind, white.x, white.y, curve.kind, curve.gamma, intent);
                adapted_profile("adapted " + description_of(e), e);
            }
    // Whites at the ends of what is accepted. Gray that is not adapted refuses all but the last by 3 or 7.
    const float least = std::numeric_limits<float>::denorm_min();
    const struct {
        uint32_t plain;
        float x, y;
    } ends[] = {{3, 0, least}, {3, 1, least}, {3, 0.3f, 1e-13f}, {7, 0, 1e-12f}, {7, 1, 1e-10f}, {360, -0.0f, 0.5f}};
    for (const auto &white : ends) {
        const Encoding e = adapted_encoding(MERQYDUK_WHITE_OWN, white.x, white.y, MERQYDUK_CURVE_SRGB, 0, 0);
        expect(answer_of(not_adapted(e)) == white.plain, description_of(e) + " answered " + std::to_string(white.plain));
        adapted_profile("adapted " + description_of(e), e);
    }
}

// What applies to the white comes after 43 and 1, and before what applies to the gamma. RGB of the same white is refused by the same number.
void refuses_white(uint32_t number, float x, float y) {
    const std::string name = "adapted white " + std::to_string(x) + " " + std::to_string(y);
    for (uint32_t curve : {0u, 1u, 2u, 4u, 6u})
        for (float gamma : {0.45f, 0.0f}) refuses(name, number, adapted_gray(1, 3, x, y, curve, gamma, 1));
    for (uint32_t curve : {3u, 5u}) refuses(name + " with PQ or HLG", 1, adapted_gray(1, 3, x, y, curve, 0, 1));
    expect(answer_of(as_rgb(adapted_encoding(3, x, y, 2, 0, 1))) == number, name + " is refused so in RGB");
    expect(answer_of(adapted_encoding(0, x, y, 2, 0, 1)) == 384, name + " is not read for D65");
}

void adapted_refusals() {
    const float endless = std::numeric_limits<float>::infinity(), nan = std::numeric_limits<float>::quiet_NaN();
    const float least = std::numeric_limits<float>::denorm_min(), past = std::nextafter(1.0f, 2.0f);
    for (float bad : {-least, -0.1f, past, 2.0f, -endless, endless, nan}) {
        refuses_white(4, bad, 0.3f);
        refuses_white(4, 0.3f, bad);
    }
    for (float zero : {0.0f, -0.0f}) refuses_white(4, 0.3f, zero);
    // One of the three cone responses is zero, and nearly zero.
    refuses_white(4, float_of(0x3a391c00), float_of(0x3ec04627));
    refuses_white(5, float_of(0x3a391c00), float_of(0x3ec04628));
    refuses_white(5, float_of(0x3a391bff), float_of(0x3ec04627));
    for (uint32_t curve : {3u, 5u}) refuses("adapted PQ or HLG", 1, adapted_gray(1, 0, 0, 0, curve, 0, 1));
    for (float gamma : {0.0f, -0.0f, 1.0f / 32768, nan}) refuses("adapted gamma " + std::to_string(gamma), 8, adapted_gray(1, 0, 0, 0, 6, gamma, 0));
    // 43 comes before all else, with the mark and without.
    for (uint32_t adapted : {0u, 1u}) {
        refuses("adapted white 4", 43, adapted_gray(adapted, 4, 0, 0, 3, 0, 0));
        refuses("adapted curve 7", 43, adapted_gray(adapted, 3, 0, 0, 7, 0, 0));
        refuses("adapted intent 4", 43, adapted_gray(adapted, 3, 0, 0, 3, 0, 4));
    }
    for (uint32_t adapted : {2u, 3u, 4u, 255u, 256u, 257u, 0x10001u, 0x80000000u, 0x80000001u, 0xffffffffu}) {
        const std::string name = "the mark " + std::to_string(adapted);
        for (uint32_t curve = 0; curve < 8; curve++) refuses(name, 43, adapted_gray(adapted, 0, 0, 0, curve, 0.45f, 1));
        refuses(name + " with wy 0", 43, adapted_gray(adapted, 3, 0.3f, 0, 2, 0, 1));
        refuses(name + " with gamma 0", 43, adapted_gray(adapted, 0, 0, 0, 6, 0, 1));
        refuses(name + " with white 4", 43, adapted_gray(adapted, 4, 0, 0, 2, 0, 1));
        refuses(name + " with intent 4", 43, adapted_gray(adapted, 0, 0, 0, 2, 0, 4));
    }
}

// ---- the same by chance

// The answer to an adapted encoding in an output that has room: 1, 4 and 5 are RGB's, and 8 is that of gray D65 with the same curve.
uint32_t adapted_answer(const Encoding &e) {
    const uint32_t of_rgb = answer_of(as_rgb(e));
    if (of_rgb == 1 || of_rgb == 4 || of_rgb == 5) return of_rgb;
    const uint32_t of_curve = answer_of(not_adapted(adapted_encoding(MERQYDUK_WHITE_D65, 0, 0, e.curve, e.gamma, e.intent)));
    return of_curve < MERQYDUK_MIN_PROFILE ? of_curve : uint32_t(by_hand(e).size());
}

// Whether the call answers so, and writes the file made by hand or nothing; and whether the file is read as its plan. The answers are counted.
bool adapted_right(const Encoding &e, Device device, std::map<uint32_t, int> &answers) {
    const uint32_t answer = adapted_answer(e);
    Bytes out(1300, 7), left = out;
    answers[answer]++;
    if (answer >= MERQYDUK_MIN_PROFILE) {
        const Bytes f = with_device(by_hand(e), device);
        std::copy(f.begin(), f.end(), left.begin());
    }
    if (call_of(e).write_device(device, out.data(), 1200) != answer || out != left) return false;
    if (answer < MERQYDUK_MIN_PROFILE) return true;
    out.resize(answer);
    Asked asked = asked_of(e);
    asked.device = device;
    const merqyduk_plan expected = plan_of(out, asked);
    merqyduk_plan plan;
    return merqyduk_read(out.data(), out.size(), &plan, sizeof plan) == 0 && std::memcmp(&plan, &expected, sizeof plan) == 0;
}

// Whether the calls that take the mark, with 0 for it, answer, write and count as those that do not take it.
bool zero_mark_right(const Encoding &e, Device device, size_t n) {
    const Call plain = call_of(not_adapted(e)), zero = adapted_gray(0, e.white, e.wx, e.wy, e.curve, e.gamma, e.intent);
    Bytes left(1300, 7), out = left;
    uint32_t counts[3] = {77, 77, 77}, told = 77;
    const uint32_t answer = plain.write_device(device, left.data(), n);
    if (plain.length_counted(n, &counts[0]) != answer || zero.length_counted(n, &counts[1]) != answer) return false;
    if (zero.write_device_counted(device, out.data(), n, &counts[2]) != answer || out != left) return false;
    Bytes counted(1300, 7);
    return plain.write_counted(counted.data(), n, &told) == answer && counts[0] == told && counts[1] == told && counts[2] == told;
}

void adapted_by_chance() {
    Chance chance(MERQYDUK_SPACE_GRAY, 1);
    std::map<uint32_t, int> answers;
    bool all_right = true, zeros_right = true;
    for (uint32_t n = 0; n < 50000; n++) {
        const Encoding e = chance.encoding(n % 4);
        const Device device = {chance.any(), chance.any()};
        all_right = adapted_right(e, device, answers) && all_right;
        zeros_right = zero_mark_right(e, device, n % 2 == 0 ? 1200 : chance.below(500)) && zeros_right;
    }
    // Whites near one for which a cone response is zero, so that some are refused 4 and 5, and others have large numbers.
    for (int n = 0; n < 2000; n++) {
        const float x = float_of(0x3a391c00 + chance.below(64) - 32), y = float_of(0x3ec04627 + chance.below(2048) - 1024);
        all_right = adapted_right(adapted_encoding(MERQYDUK_WHITE_OWN, x, y, n % 3 == 0 ? 6 : 2, 0.45f, 1), acme, answers) && all_right;
    }
    expect(all_right, "adapted gray by chance");
    expect(zeros_right, "gray by chance with the mark 0");
    for (uint32_t answer : {1u, 4u, 5u, 8u}) expect(answers[answer] > 20, "adapted gray by chance answered " + std::to_string(answer));
}

// ---- gray files, adapted and not, changed

// What the reader answers where a byte past the header of a gray file is another, and the id is right: letters and free numbers may be others.
uint32_t body_answer(const Bytes &f, const Bytes &changed, size_t at) {
    if (at < 132 + 12 * size_t(word(f, 128))) return 25;
    const size_t text_at = word(f, 136) + 28, text_end = word(f, 136) + word(f, 140);
    if (at >= text_at && at < text_end) return (at - text_at) % 2 == 1 && changed[at] < 128 ? 0 : 26;
    // The last line of the table is the curve's, whose number stands 12 bytes from its start on where it has 16.
    const size_t last = 132 + 12 * (size_t(word(f, 128)) - 1), curve = word(f, last + 4), white = word(f, 160);
    std::vector<size_t> numbers;
    if (word(f, last + 8) == 16) numbers.push_back(curve + 12);
    if (word(f, 128) == 4) numbers.insert(numbers.end(), {white + 8, white + 16});
    else for (size_t i = 0; i < 9; i++) numbers.push_back(word(f, 172) + 8 + 4 * i);
    for (size_t number : numbers)
        if (at >= number && at < number + 4) return std::abs(int64_t(int32_t(word(changed, number)))) <= 2147483264 ? 0 : 27;
    return 26;
}

// Each bit past the header changed, by the id that the file then has and without one.
void gray_bits(const Bytes &f, Asked asked) {
    std::map<uint32_t, int> answers;
    bool all_right = true;
    for (size_t bit = 8 * 128; bit < 8 * f.size(); bit++) {
        const Bytes changed = with_id(with_bit(f, bit));
        const uint32_t answer = body_answer(f, changed, bit / 8);
        answers[answer]++;
        for (bool no_id : {false, true}) {
            const Bytes file = no_id ? without_id(changed) : changed;
            asked.id_not_computed = no_id;
            merqyduk_plan plan, expected;
            std::memset(&plan, 0xa5, sizeof plan);
            expected = plan;
            if (answer == 0) expected = plan_of(file, asked);
            if (answer == 0 && asked.curve == MERQYDUK_CURVE_GAMMA) expected.gamma = int32_t(word(element(file, "kTRC"), 12));
            all_right = all_right && merqyduk_read(file.data(), file.size(), &plan, sizeof plan) == answer &&
                        std::memcmp(&plan, &expected, sizeof plan) == 0;
        }
    }
    expect(all_right, "each bit past the header of " + text(f));
    for (uint32_t answer : {0u, 25u, 26u}) expect(answers[answer] > 100, "bits of " + text(f) + " answered " + std::to_string(answer));
}

// By its right id, without one and by another.
void refuses_adapted(const std::string &name, uint32_t number, const Bytes &f) {
    refuses_file(name, number, f);
    refuses_file(name + " without an id", number, without_id(f));
    refuses_file(name + " with another id", number, with_bit(f, next_id_bit()));
}

// The elements of adapted gray with other tags, and of RGB and adapted gray under the header of the other.
void other_tables(const Bytes &f, const Bytes &plain, const Bytes &srgb) {
    const std::vector<std::vector<std::string>> tables = {
        {"desc", "cprt", "chad", "wtpt", "kTRC"}, {"desc", "cprt", "wtpt", "kTRC", "chad"}, {"desc", "wtpt", "chad", "cprt", "kTRC"},
        {"chad", "desc", "cprt", "wtpt", "kTRC"}, {"desc", "cprt", "wtpt", "chad"},         {"desc", "cprt", "chad", "kTRC"},
        {"desc", "cprt", "chad", "chad", "kTRC"}, {"desc", "cprt", "wtpt", "wtpt", "kTRC"}, {"desc", "cprt", "wtpt", "chad", "chad", "kTRC"},
        {"desc", "cprt", "wtpt", "chad", "kTRC", "kTRC"}};
    for (const auto &tags : tables) refuses_adapted("other tags", 25, laid_out(f, elements_of(f, tags)));
    refuses_adapted("four tags of five", 25, with_id(with(f, 131, 4)));
    refuses_adapted("five tags of four", 25, with_id(with(plain, 131, 5)));
    expect(laid_out(f, elements_of(f, adapted_tags)) == f, "its own tags");
    const auto with_space = [](Bytes file, const std::string &space) {
        std::copy(space.begin(), space.end(), file.begin() + 16);
        return with_id(file);
    };
    refuses_adapted("adapted gray in an RGB header", 25, with_space(f, "RGB "));
    refuses_adapted("RGB in a gray header", 25, with_space(srgb, "GRAY"));
}

// Numbers of `wtpt` are D50's and no others, and numbers of `chad` are free in their range.
void other_numbers(const Bytes &f, const Bytes &plain, Asked asked) {
    const size_t white = word(f, 160) + 8, matrix = word(f, 172) + 8;
    Elements own = elements_of(f, adapted_tags);
    own[2].second = element(plain, "wtpt");
    refuses_adapted("its own white beside chad", 26, laid_out(f, own));
    for (size_t i = 0; i < 3; i++)
        for (int32_t by : {-1, 1})
            refuses_adapted("a number beside D50's", 26, with_id(with_number(f, white + 4 * i, int32_t(word(f, white + 4 * i)) + by)));
    refuses_adapted("another type of chad", 26, with_id(with(f, matrix - 8, 'x')));
    refuses_adapted("a number beside D50's and one of chad out of its range", 26, with_id(with_number(with(f, white + 3, 0), matrix, 2147483265)));
    for (size_t i = 0; i < 9; i++) {
        for (int32_t number : {2147483265, -2147483265, 2147483647, std::numeric_limits<int32_t>::min()})
            refuses_adapted("a number of chad out of its range", 27, with_id(with_number(f, matrix + 4 * i, number)));
        for (int32_t number : {2147483264, -2147483264, 0, -1}) {
            const Bytes other = with_number(f, matrix + 4 * i, number);
            reads("another number of chad", with_id(other), asked);
            id_of_another("another number of chad", other);
        }
    }
    // Gray that is not adapted may have D50 for its white.
    asked.adapted = false;
    reads("gray with D50 for its own white", with_id(with_number(with_number(plain, white_at(plain), 63190), white_at(plain) + 8, 54061)), asked);
}

// Gray D65 Relative SRGB, 384 bytes.
void adapted_files(const Bytes &f, const Bytes &plain, const Bytes &srgb) {
    const Encoding e = adapted_encoding(MERQYDUK_WHITE_D65, 0, 0, MERQYDUK_CURVE_SRGB, 0, MERQYDUK_INTENT_RELATIVE);
    const Encoding with_gamma = adapted_encoding(MERQYDUK_WHITE_DCI, 0, 0, MERQYDUK_CURVE_GAMMA, 0.45f, MERQYDUK_INTENT_ABSOLUTE);
    uint32_t offset = 0;
    expect(merqyduk_find(f.data(), f.size(), wtpt, &offset) == 20 && offset == 288, "the white in adapted gray");
    expect(merqyduk_find(f.data(), f.size(), chad, &offset) == 44 && offset == 308, "chad in adapted gray");
    expect(merqyduk_find(plain.data(), plain.size(), chad, &offset) == 0 && offset == 308, "no chad in gray that is not adapted");
    expect(found(f, chad) == found(srgb, chad), "chad of sRGB");
    // By another program's MD5, of the Rust's gray and sRGB files put together as in `spliced`.
    const Bytes id = {0xda, 0x1f, 0xa5, 0xbe, 0xd7, 0x66, 0xe3, 0x56, 0xd9, 0xc3, 0xcf, 0x25, 0x75, 0x11, 0x25, 0x4a};
    expect(std::equal(id.begin(), id.end(), f.begin() + 84), "the id of adapted gray");
    for (const Encoding &one : {e, with_gamma, not_adapted(e), not_adapted(with_gamma)}) {
        const Bytes file = written(call_of(one), {0, 0});
        header_bits(file, 1);
        gray_bits(file, asked_of(one));
    }
    other_tables(f, plain, srgb);
    other_numbers(f, plain, asked_of(e));
    for (const Device &device : {Device{0, 0}, acme}) {
        const Bytes file = with_device(f, device);
        bad_ids(file);
        for (const Bytes &one : {file, without_id(file)}) {
            put_into_segments("adapted gray", one);
            good_segments("adapted gray", one);
        }
    }
    for (size_t letters : {size_t(1), size_t(2), size_t(372)}) {
        const Bytes other = with_letters(f, letters);
        reads("adapted gray with another text", other, asked_of(e));
        put_into_segments("adapted gray with another text", other);
    }
    bad_segments(f);
    changed_fronts(f);
    segments_by_chance(f);
    vast_output("adapted gray", f, call_of(e));
}

// The calls that take the mark, with 0 for it, are those that do not take it.
void zero_mark(const Bytes &plain) {
    expect(profile("gray with the mark 0", uint32_t(plain.size()), adapted_gray(0, 0, 0, 0, 2, 0, 1), {1, 1, 2, 0}) == plain,
           "gray with the mark 0 is gray");
    for (uint32_t white = 0; white < 4; white++)
        for (uint32_t curve = 0; curve < 7; curve++)
            for (uint32_t intent = 0; intent < 4; intent++) {
                Encoding e = adapted_encoding(white, 0.3457f, 0.3585f, curve, 0.45f, intent);
                bool all_right = true;
                for (size_t n = 0; n <= 500; n++) all_right = zero_mark_right(e, next_device(), n) && all_right;
                expect(all_right, description_of(e) + " with the mark 0 in outputs of all lengths");
            }
    refuses("gray wy 0 with the mark 0", 3, adapted_gray(0, 3, 0.3f, 0, 2, 0, 0));
    refuses("gray (0, 1e-12) with the mark 0", 7, adapted_gray(0, 3, 0, 1e-12f, 2, 0, 0));
    refuses("gamma 0 with the mark 0", 8, adapted_gray(0, 0, 0, 0, 6, 0, 0));
    refuses("HLG with the mark 0", 1, adapted_gray(0, 0, 0, 0, 5, 0, 1));
}

void save(const std::string &folder, const std::string &name, const std::vector<uint8_t> &profile) {
    std::string path = folder + "/" + name + ".icc";
    FILE *file = std::fopen(path.c_str(), "wb");
    if (!file || std::fwrite(profile.data(), 1, profile.size(), file) != profile.size() || std::fclose(file) != 0) {
        std::perror(path.c_str());
        std::exit(2);
    }
}

} // namespace

int main(int argc, char **argv) {
    const std::string folder = argc > 1 ? argv[1] : ".";
    const float infinity = std::numeric_limits<float>::infinity();
    const float nan = std::numeric_limits<float>::quiet_NaN();
    const Primaries none{0, 0, 0, 0, 0, 0};
    const Primaries red_twice{0.6399987f, 0.33001015f, 0.6399987f, 0.33001015f, 0.15000205f, 0.059997204f};
    const Primaries own{0.69f, 0.31f, 0.21f, 0.71f, 0.14f, 0.05f};

    auto srgb = profile("sRGB", 504, rgb(0, 0, 0, 0, none, 2, 0, 0), {2, 0, 2, 0});
    expect(text(srgb) == "sRGB", "the text of sRGB");
    expect(word(srgb, 0) == 504, "the size field of sRGB");
    save(folder, "srgb", srgb);
    save(folder, "srgb-relative", profile("sRGB Relative", 536, rgb(0, 0, 0, 0, none, 2, 0, 1), {2, 1, 2, 0}));
    auto gray_d65 = profile("gray", 328, gray(0, 0, 0, 2, 0, 1), {1, 1, 2, 0});
    save(folder, "gray", gray_d65);
    auto adapted_d65 = profile("adapted gray", 384, adapted_gray(1, 0, 0, 0, 2, 0, 1), {1, 1, 2, 0, true});
    save(folder, "gray-adapted", adapted_d65);
    const char *const xyb_names[] = {"xyb", "xyb-relative", "xyb-saturation", "xyb-absolute"};
    std::vector<Bytes> xyb_files;
    for (uint32_t intent = 0; intent < 4; intent++) {
        xyb_files.push_back(profile(xyb_names[intent], 720, xyb(intent), {3, intent, 0, 0}));
        save(folder, xyb_names[intent], xyb_files[intent]);
    }
    const Bytes &xyb_perceptual = xyb_files[0];
    profile("RGB white (0, 1)", 544, rgb(3, 0, 1, 0, none, 2, 0, 0), {2, 0, 2, 0});
    auto infinite = rgb(0, 0, 0, 0, none, 6, infinity, 0);
    uint8_t buffer[1200];
    uint32_t length = infinite(buffer, sizeof buffer);
    auto endless = profile("infinite gamma", length, infinite, {2, 0, 6, infinity});
    std::string name = text(endless);
    expect(name.size() > 4 && name.substr(name.size() - 4) == "ginf", "the text of an infinite gamma");
    expect(word(element(endless, "rTRC"), 12) == 0, "the number of an infinite gamma");
    auto with_own = rgb(0, 0, 0, 3, own, 6, 0.45f, 1);
    save(folder, "own", profile("own primaries", with_own(buffer, sizeof buffer), with_own, {2, 1, 6, 0.45f}));
    auto negative = gray(1, 0, 0, 6, -2.5f, 3);
    profile("gray with a gamma below zero", negative(buffer, sizeof buffer), negative, {1, 3, 6, -2.5f});
    // The other named curves, and the other pairs that have `cicp`.
    for (uint32_t curve : {0u, 1u, 4u})
        for (uint32_t primaries : {1u, 2u}) {
            auto named = rgb(0, 0, 0, primaries, none, curve, 0, 2);
            profile("a named curve", named(buffer, sizeof buffer), named, {2, 2, curve, 0});
        }

    refuses("PQ", 1, rgb(0, 0, 0, 1, none, 3, 0, 1));
    refuses("HLG gray", 1, gray(0, 0, 0, 5, 0, 1));
    refuses("gray wy 0", 3, gray(3, 0.3f, 0, 2, 0, 0));
    refuses("RGB wy 0", 4, rgb(3, 0.3f, 0, 0, none, 2, 0, 0));
    refuses("RGB white NaN", 4, rgb(3, nan, 0.3f, 0, none, 2, 0, 0));
    refuses("red for green", 6, rgb(0, 0, 0, 3, red_twice, 2, 0, 0));
    refuses("gray (0, 1e-12)", 7, gray(3, 0, 1e-12f, 2, 0, 0));
    refuses("gamma 0", 8, rgb(0, 0, 0, 0, none, 6, 0, 0));
    refuses("gamma 1/32768", 8, gray(0, 0, 0, 6, 1.0f / 32768, 0));
    refuses("gamma NaN", 8, gray(0, 0, 0, 6, nan, 0));

    // 43 comes before all else.
    refuses("white 4", 43, gray(4, 0, 0, 3, 0, 0));
    refuses("curve 7", 43, gray(3, 0, 0, 7, 0, 0));
    refuses("intent 4", 43, gray(3, 0, 0, 3, 0, 4));
    refuses("RGB white 4", 43, rgb(4, 0, 0, 0, none, 3, 0, 0));
    refuses("primaries 4", 43, rgb(3, 0, 0, 4, none, 3, 0, 0));
    refuses("RGB curve 7", 43, rgb(3, 0, 0, 0, none, 7, 0, 0));
    refuses("RGB intent 4", 43, rgb(3, 0, 0, 0, none, 3, 0, 4));
    refuses("XYB intent 4", 43, xyb(4));
    refuses("intent 2^32 - 1", 43, xyb(0xffffffffu));

    // For other programs to show maker and model.
    save(folder, "srgb-device", written(rgb(0, 0, 0, 0, none, 2, 0, 0), acme));
    save(folder, "gray-device", written(gray(0, 0, 0, 2, 0, 1), acme));
    save(folder, "gray-adapted-device", written(adapted_gray(1, 0, 0, 0, 2, 0, 1), acme));
    save(folder, "xyb-device", written(xyb(0), acme));

    // And profiles without an id.
    save(folder, "srgb-no-id", without_id(srgb));
    save(folder, "gray-no-id", without_id(gray_d65));
    save(folder, "gray-adapted-no-id", without_id(adapted_d65));
    save(folder, "xyb-no-id", without_id(xyb_perceptual));

    for (const Device &device : {Device{0, 0}, acme}) {
        const Bytes rgb_file = with_device(srgb, device), gray_file = with_device(gray_d65, device), xyb_file = with_device(xyb_perceptual, device);
        bad_files(rgb_file, gray_file, xyb_file);
        bad_files(without_id(rgb_file), without_id(gray_file), without_id(xyb_file));
        ids(rgb_file, gray_file, xyb_file);
    }
    header_bits(srgb, 2);
    segments(srgb, gray_d65, xyb_perceptual);
    xyb_intents(xyb_files);
    adapted_profiles();
    adapted_refusals();
    adapted_by_chance();
    adapted_files(adapted_d65, gray_d65, srgb);
    zero_mark(gray_d65);
    good_jobs(srgb, xyb_files[MERQYDUK_INTENT_RELATIVE]);
    bad_jobs();
    typed_texts();
    vast_output("sRGB", srgb, rgb(0, 0, 0, 0, none, 2, 0, 0));
    numbers_that_were_rounded();
    devices_by_chance(MERQYDUK_SPACE_GRAY, 0, {1, 3, 7, 8}, {2, 4, 5, 6});
    devices_by_chance(MERQYDUK_SPACE_GRAY, 1, {1, 4, 8}, {2, 3, 6, 7});
    devices_by_chance(MERQYDUK_SPACE_RGB, 0, {1, 4, 7, 8}, {2, 3});
    devices_by_chance(MERQYDUK_SPACE_XYB, 0, {720}, {1, 2, 3, 4, 5, 6, 7, 8});

    std::printf("%d of %d\n", tried - failed, tried);
    return failed == 0 ? 0 : 1;
}
