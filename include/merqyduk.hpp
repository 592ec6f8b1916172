// Merqyduk for C++11 and later: the calls of merqyduk.h with an encoding as one value. Header only; it throws nothing of
// its own (a std::vector may run out of memory). merqyduk.h says what the answers, the id, maker and model, the mark
// `adapted`, a gamma and the count of rounded numbers mean.
//
//    auto profile = merqyduk::write(merqyduk::Encoding::srgb());
//    if (profile) save(profile.data(), profile.size());
//    else         report(profile.answer().text());
#ifndef MERQYDUK_HPP
#define MERQYDUK_HPP

#include "merqyduk.h"

#include <algorithm>
#include <array>
#include <cstddef>
#include <cstdint>
#include <string>
#include <vector>

#if __cplusplus >= 201703L
#include <string_view>
#endif

namespace merqyduk {

// ---- what a profile is written for

struct White {
    std::uint32_t kind;
    float x, y; // of own() only

    static White d65() noexcept { return {MERQYDUK_WHITE_D65, 0, 0}; }
    static White e() noexcept { return {MERQYDUK_WHITE_E, 0, 0}; }
    static White dci() noexcept { return {MERQYDUK_WHITE_DCI, 0, 0}; }
    static White own(float x, float y) noexcept { return {MERQYDUK_WHITE_OWN, x, y}; }
};

struct Primaries {
    std::uint32_t kind;
    float rx, ry, gx, gy, bx, by; // of own() only

    static Primaries srgb() noexcept { return {MERQYDUK_PRIMARIES_SRGB, 0, 0, 0, 0, 0, 0}; }
    static Primaries bt2100() noexcept { return {MERQYDUK_PRIMARIES_BT2100, 0, 0, 0, 0, 0, 0}; }
    static Primaries p3() noexcept { return {MERQYDUK_PRIMARIES_P3, 0, 0, 0, 0, 0, 0}; }
    static Primaries own(float rx, float ry, float gx, float gy, float bx, float by) noexcept {
        return {MERQYDUK_PRIMARIES_OWN, rx, ry, gx, gy, bx, by};
    }
};

struct Curve {
    std::uint32_t kind;
    float gamma; // of the two gammas only

    static Curve bt709() noexcept { return {MERQYDUK_CURVE_BT709, 0}; }
    static Curve linear() noexcept { return {MERQYDUK_CURVE_LINEAR, 0}; }
    static Curve srgb() noexcept { return {MERQYDUK_CURVE_SRGB, 0}; }
    static Curve dci() noexcept { return {MERQYDUK_CURVE_DCI, 0}; }
    // Known, but refused by every call that writes.
    static Curve pq() noexcept { return {MERQYDUK_CURVE_PQ, 0}; }
    static Curve hlg() noexcept { return {MERQYDUK_CURVE_HLG, 0}; }
    // The exponent that encodes, as jxl-rs has it, such as 0.45455; or the one that decodes, such as 2.2.
    static Curve encoding_gamma(float g) noexcept { return {MERQYDUK_CURVE_GAMMA, g}; }
    static Curve display_gamma(float g) noexcept { return {MERQYDUK_CURVE_GAMMA, 1 / g}; }
};

enum class Intent : std::uint32_t {
    perceptual = MERQYDUK_INTENT_PERCEPTUAL,
    relative = MERQYDUK_INTENT_RELATIVE,
    saturation = MERQYDUK_INTENT_SATURATION,
    absolute = MERQYDUK_INTENT_ABSOLUTE
};

// Four letters as one number, the first the most significant.
inline std::uint32_t signature(const char (&letters)[5]) noexcept {
    std::uint32_t number = 0;
    for (int i = 0; i < 4; i++) number = number << 8 | static_cast<unsigned char>(letters[i]);
    return number;
}

// Maker and model: any four bytes each, as one number.
struct Device {
    std::uint32_t maker, model;

    static Device none() noexcept { return {0, 0}; }
    // By their letters, as in of("ACME", "PLT1").
    static Device of(const char (&maker)[5], const char (&model)[5]) noexcept {
        return {signature(maker), signature(model)};
    }
};

struct Encoding {
    enum class Kind { gray, rgb, xyb };

    Kind kind;
    White white;         // of gray and RGB
    Primaries primaries; // of RGB
    Curve curve;         // of gray and RGB
    Intent intent;
    Device device;
    bool adapted;        // of gray: D50 in the profile and chad, not the white alone

    static Encoding gray(White white, Curve curve, Intent intent, Device device = Device::none()) noexcept {
        return {Kind::gray, white, Primaries::srgb(), curve, intent, device, false};
    }
    static Encoding gray_adapted(White white, Curve curve, Intent intent, Device device = Device::none()) noexcept {
        return {Kind::gray, white, Primaries::srgb(), curve, intent, device, true};
    }
    static Encoding rgb(White white, Primaries primaries, Curve curve, Intent intent,
                        Device device = Device::none()) noexcept {
        return {Kind::rgb, white, primaries, curve, intent, device, false};
    }
    static Encoding xyb(Intent intent = Intent::perceptual, Device device = Device::none()) noexcept {
        return {Kind::xyb, White::d65(), Primaries::srgb(), Curve::srgb(), intent, device, false};
    }
    static Encoding srgb(Intent intent = Intent::perceptual, Device device = Device::none()) noexcept {
        return rgb(White::d65(), Primaries::srgb(), Curve::srgb(), intent, device);
    }
    static Encoding display_p3(Intent intent = Intent::perceptual, Device device = Device::none()) noexcept {
        return rgb(White::d65(), Primaries::p3(), Curve::srgb(), intent, device);
    }
};

// ---- what a call answers

// The length of what was written, a profile or segments, or a refusal.
class Answer {
  public:
    explicit Answer(std::uint32_t number) noexcept : number_(number) {}

    // Whether something was written: nothing is shorter than the shortest profile.
    explicit operator bool() const noexcept { return number_ >= MERQYDUK_MIN_PROFILE; }
    // 0 where nothing was written.
    std::size_t length() const noexcept { return *this ? number_ : 0; }
    // One of MERQYDUK_REFUSED_..., or 0 where the job has no such entry; 0 too where something was written.
    std::uint32_t refusal() const noexcept { return *this ? 0 : number_; }
    // What the refusal means.
    const char *text() const noexcept { return merqyduk_refusal_text(number_); }

  private:
    std::uint32_t number_;
};

using Id = std::array<std::uint8_t, MERQYDUK_ID_SIZE>;

// The id of a profile, which has at least 100 bytes; all zero where it is not computed.
inline Id id(const std::uint8_t *profile) noexcept {
    Id bytes;
    std::copy_n(profile + MERQYDUK_ID_OFFSET, bytes.size(), bytes.begin());
    return bytes;
}

// A profile by value, or the refusal that stands in its place; then it has no bytes, and its id is all zero.
class Profile {
  public:
    // Has the function write: write(out, out_len).
    template <typename Write>
    static Profile from(Write write) noexcept {
        Profile made;
        made.answer_ = write(made.bytes_.data(), made.bytes_.size());
        return made;
    }

    explicit operator bool() const noexcept { return bool(answer_); }
    Answer answer() const noexcept { return answer_; }
    const std::uint8_t *data() const noexcept { return bytes_.data(); }
    std::size_t size() const noexcept { return answer_.length(); }
    const std::uint8_t *begin() const noexcept { return data(); }
    const std::uint8_t *end() const noexcept { return data() + size(); }
    Id id() const noexcept { return merqyduk::id(data()); }

  private:
    Profile() noexcept : answer_(0), bytes_() {}

    Answer answer_;
    std::array<std::uint8_t, MERQYDUK_MAX_PROFILE> bytes_;
};

// The profile of an encoding also tells how many of its fixed numbers were rounded; 0 where the encoding is refused. A job's
// calls tell no such count.
class CountedProfile : public Profile {
  public:
    CountedProfile(const Profile &profile, std::uint32_t rounded) noexcept : Profile(profile), rounded_(rounded) {}

    std::uint32_t rounded() const noexcept { return rounded_; }

  private:
    std::uint32_t rounded_;
};

// ---- writing

// The encoding as merqyduk.h has it.
inline merqyduk_encoding in_c(const Encoding &e) noexcept {
    const Primaries &p = e.primaries;
    // The kinds stand in the order of MERQYDUK_SPACE_..., from 0 on.
    return {static_cast<std::uint32_t>(e.kind) + MERQYDUK_SPACE_GRAY, e.white.kind, e.white.x, e.white.y,
            p.kind, p.rx, p.ry, p.gx, p.gy, p.bx, p.by, e.curve.kind, e.curve.gamma,
            static_cast<std::uint32_t>(e.intent), e.device.maker, e.device.model, e.adapted ? 1u : 0u};
}

// Into an output that the caller lends.
inline Answer write(const Encoding &encoding, std::uint8_t *out, std::size_t out_len) noexcept {
    const merqyduk_encoding e = in_c(encoding);
    return Answer(merqyduk_write(&e, out, out_len));
}

// What write would answer on an output of so many bytes, without an output: a profile's length before there is memory for it.
inline Answer length(const Encoding &encoding, std::size_t capacity = SIZE_MAX) noexcept {
    const merqyduk_encoding e = in_c(encoding);
    return Answer(merqyduk_length(&e, capacity));
}

// Both with a count: rounded becomes how many fixed numbers of the profile were rounded, and is unchanged where the encoding is
// refused.
inline Answer write(const Encoding &encoding, std::uint8_t *out, std::size_t out_len, std::uint32_t &rounded) noexcept {
    const merqyduk_encoding e = in_c(encoding);
    return Answer(merqyduk_write_counted(&e, out, out_len, &rounded));
}

inline Answer length(const Encoding &encoding, std::size_t capacity, std::uint32_t &rounded) noexcept {
    const merqyduk_encoding e = in_c(encoding);
    return Answer(merqyduk_length_counted(&e, capacity, &rounded));
}

template <std::size_t N>
Answer write(const Encoding &encoding, std::array<std::uint8_t, N> &out) noexcept {
    return write(encoding, out.data(), N);
}

// By value, with the count.
inline CountedProfile write(const Encoding &encoding) noexcept {
    std::uint32_t rounded = 0;
    const Profile profile = Profile::from(
        [&](std::uint8_t *out, std::size_t out_len) { return write(encoding, out, out_len, rounded); });
    return CountedProfile(profile, rounded);
}

// The vector becomes the profile; it is unchanged where the encoding is refused.
inline Answer write(const Encoding &encoding, std::vector<std::uint8_t> &out) {
    const CountedProfile profile = write(encoding);
    if (profile) out.assign(profile.begin(), profile.end());
    return profile.answer();
}

// ---- typed texts

// What a text says: its encoding, or the refusal that stands in its place; then the encoding is all zero.
struct Parsed {
    std::uint32_t refusal;
    Encoding encoding;

    explicit operator bool() const noexcept { return refusal == 0; }
    // What the refusal means.
    const char *text() const noexcept { return merqyduk_refusal_text(refusal); }
};

// The text is a description, such as sRGB or RGB_D65_SRG_Rel_Lin: merqyduk.h has its language. Its encoding has no device
// and is not adapted.
inline Parsed parse(const char *text, std::size_t text_len) noexcept {
    Parsed made = Parsed();
    merqyduk_encoding e;
    made.refusal = merqyduk_parse(text, text_len, &e);
    if (!made) return made;
    const White white = {e.white, e.wx, e.wy};
    const Curve curve = {e.curve, e.gamma};
    const Intent intent = static_cast<Intent>(e.intent);
    switch (e.space) {
    case MERQYDUK_SPACE_GRAY:
        made.encoding = Encoding::gray(white, curve, intent);
        break;
    case MERQYDUK_SPACE_RGB:
        made.encoding = Encoding::rgb(white, {e.primaries, e.rx, e.ry, e.gx, e.gy, e.bx, e.by}, curve, intent);
        break;
    default:
        made.encoding = Encoding::xyb(intent);
    }
    return made;
}

#if __cplusplus >= 201703L
inline Parsed parse(std::string_view text) noexcept { return parse(text.data(), text.size()); }
#endif

// ---- jobs

// A job in bytes that the caller keeps (docs/JOB.md). Its entries are numbered from 0 on over all sections.
class Job {
  public:
    Job(const std::uint8_t *bytes, std::size_t length) noexcept : bytes_(bytes), length_(length), entries_(0) {
        refusal_ = merqyduk_job(bytes, length, &entries_);
    }

    // Whether the job is accepted. If not, refusal() is 41, 42 or 43, and every entry is refused with it.
    explicit operator bool() const noexcept { return refusal_ == 0; }
    std::uint32_t refusal() const noexcept { return refusal_; }
    const char *text() const noexcept { return merqyduk_refusal_text(refusal_); }
    std::uint32_t entries() const noexcept { return entries_; }

    // The profile of entry i, into an output that the caller lends, and by value.
    Answer write(std::size_t i, std::uint8_t *out, std::size_t out_len) const noexcept {
        return Answer(merqyduk_job_profile(bytes_, length_, i, out, out_len));
    }
    Profile profile(std::size_t i) const noexcept {
        return Profile::from([&](std::uint8_t *out, std::size_t out_len) { return write(i, out, out_len); });
    }

  private:
    const std::uint8_t *bytes_;
    std::size_t length_;
    std::uint32_t entries_;
    std::uint32_t refusal_;
};

// ---- reading

// What a file says: its plan, or the refusal that stands in its place; then the plan is all zero.
struct Reading {
    std::uint32_t refusal;
    merqyduk_plan plan;

    explicit operator bool() const noexcept { return refusal == 0; }
    // What the refusal means.
    const char *text() const noexcept { return merqyduk_refusal_text(refusal); }
    // The text in the profile; empty for XYB, whose plan holds none.
    std::string description() const { return std::string(plan.text, plan.text + plan.letters); }
};

inline Reading read(const std::uint8_t *file, std::size_t file_len) noexcept {
    Reading made = Reading();
    made.refusal = merqyduk_read(file, file_len, &made.plan, sizeof made.plan);
    return made;
}

// A part of the file that was asked; empty where the file is refused, and where it has no such tag.
struct Element {
    const std::uint8_t *data;
    std::size_t size;

    explicit operator bool() const noexcept { return size != 0; }
};

// The element of a tag by its four letters, as in find(file, file_len, "desc").
inline Element find(const std::uint8_t *file, std::size_t file_len, const char (&tag)[5]) noexcept {
    std::uint32_t offset = 0;
    const std::uint32_t size = merqyduk_find(file, file_len, signature(tag), &offset);
    return size == 0 ? Element{file, 0} : Element{file + offset, size};
}

// ---- a profile in APP2 segments of a JPEG file

// Puts a file into segments of so many bytes of data, into an output that the caller lends.
inline Answer write_segments(const std::uint8_t *file, std::size_t file_len, std::size_t size, std::uint8_t *out,
                             std::size_t out_len) noexcept {
    return Answer(merqyduk_write_segments(file, file_len, size, out, out_len));
}

// The vector becomes the segments; it is unchanged where the file or the size is refused.
inline Answer write_segments(const std::uint8_t *file, std::size_t file_len, std::size_t size,
                             std::vector<std::uint8_t> &out) {
    std::vector<std::uint8_t> lent(MERQYDUK_MAX_SEGMENTS_LENGTH);
    const Answer answer = write_segments(file, file_len, size, lent.data(), lent.size());
    if (answer) out.assign(lent.data(), lent.data() + answer.length());
    return answer;
}

// Joins segments, in any order, to the file that they hold, into an output that the caller lends.
inline Answer join_segments(const std::uint8_t *segments, std::size_t segments_len, std::uint8_t *out,
                            std::size_t out_len) noexcept {
    return Answer(merqyduk_join_segments(segments, segments_len, out, out_len));
}

// The vector becomes the file; it is unchanged where the segments are refused. As much is lent as the segments have, so that
// data of any length has the reader's number and not MERQYDUK_REFUSED_SEGMENT_OUTPUT.
inline Answer join_segments(const std::uint8_t *segments, std::size_t segments_len, std::vector<std::uint8_t> &out) {
    std::vector<std::uint8_t> lent(segments_len);
    const Answer answer = join_segments(segments, segments_len, lent.data(), lent.size());
    if (answer) out.assign(lent.data(), lent.data() + answer.length());
    return answer;
}

} // namespace merqyduk

#endif
