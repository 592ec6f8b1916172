/* Merqyduk: ICC profiles of color encodings, for C (C99 or later) and C++. For C++ alone there is
 * merqyduk.hpp beside this file.
 *
 * `make install` puts the headers, libmerqyduk.a and merqyduk.pc in place; then a program is built by
 *    cc -o program program.c $(pkg-config --cflags --libs merqyduk)
 *
 * Answers. A call that writes answers the length of the profile, MERQYDUK_MIN_PROFILE to
 * MERQYDUK_MAX_PROFILE, which then stands at the front of the output; the rest of the output is unchanged. Or
 * it answers a number below 100, and all of the output is unchanged: one of MERQYDUK_REFUSED_..., or 0 where
 * the job has no such entry. Refusals are tested in this order: 41, 42, 43; then 0; then 1, 3 to 9. An output of
 * MERQYDUK_MAX_PROFILE bytes is enough for every profile. A call that tells a profile's length, merqyduk_length_...,
 * answers the same number without an output. The calls that read a file or a text, and those on segments, say below what
 * they answer.
 *
 * Id. A profile's id is its bytes 84 to 99, MERQYDUK_ID_SIZE bytes from MERQYDUK_ID_OFFSET on: MD5 of the
 * profile with bytes 44 to 47, 64 to 67 and 84 to 99 zero. Every profile that is written has it. The calls
 * that take a file take one with sixteen zero bytes in its place too: in ICC.1 they mean that it is not computed.
 *
 * Maker and model. A profile names the maker of its device in bytes 48 to 51 and the model in bytes 52 to 55
 * (ICC.1: device manufacturer and device model). Each is any four bytes, and a call takes or tells it as one
 * number, the first byte the most significant: 0x41434D45 is ACME. A call that writes and does not take them
 * writes zeros; so jobs and typed texts mean zeros.
 *
 * Adapted. ICC.1:2022 wants the media white of a display profile, wtpt, to be D50, and the matrix that adapts the
 * white of the device to it in chad. RGB profiles have both. A gray profile has its own white in wtpt and no chad,
 * as jxl-rs writes it; with the mark `adapted` it has D50 and the chad of an RGB profile of the same white. Set the
 * mark for viewers that go by ICC.1, and not where the bytes shall be those of jxl-rs. The description does not show
 * it. A call that writes gray and does not take the mark means 0; so do jobs and typed texts.
 *
 * Gamma is the exponent that encodes, as jxl-rs has it: the curve in the profile decodes, and is x^(1/gamma).
 * For a display gamma of 2.2 pass 1/2.2f, which is about 0.45455.
 *
 * Pointers. A pointer to bytes may be null where their number is 0. What a call writes to may not overlap what
 * it reads, nor what else it writes to.
 *
 * Threads. Calls are reentrant: the library has no data that is written, no heap, no lock and no system call,
 * and calls nothing but memcpy and memset. Any number of threads may call at once, each with an output of its
 * own.
 *
 * Stack. A call takes at most MERQYDUK_STACK bytes. Measured by host/stack.c, with arguments and memcpy:
 * merqyduk_write_gray 2,000, merqyduk_write_rgb 2,320, merqyduk_write_xyb 1,904, merqyduk_length_gray 1,168,
 * merqyduk_length_rgb 1,488, merqyduk_length_xyb 1,072, the same with _counted 2,016, 2,320, 1,904, 1,184, 1,504 and 1,088,
 * the first three with _device 2,032, 2,352 and 1,904, merqyduk_write_gray_adapted 2,336,
 * merqyduk_length_gray_adapted 1,440, merqyduk_job 456, merqyduk_job_profile 2,544, merqyduk_read 3,800,
 * merqyduk_find 3,832, merqyduk_parse_description 456, merqyduk_write_segments 3,832, merqyduk_join_segments 6,728.
 * Not counted is the dynamic linker, which takes about 2,600 more where a program's first memcpy is looked up in the
 * call; -Wl,-z,now has it looked up before.
 *
 * Platform: Linux on any x86-64 processor. The calls go by the floating-point environment that a program
 * starts with: rounding to nearest, exceptions masked, subnormal numbers kept. A program linked with
 * -ffast-math loses subnormal numbers, and a white or gamma that is one is then taken as 0. */
#ifndef MERQYDUK_H
#define MERQYDUK_H

#include <stddef.h>
#include <stdint.h>
#include <string.h>

#define MERQYDUK_VERSION_MAJOR 0
#define MERQYDUK_VERSION_MINOR 17
#define MERQYDUK_VERSION_PATCH 0
#define MERQYDUK_VERSION_STRING "0.17.0"

/* The lengths of the profiles that are written, in bytes. */
#define MERQYDUK_MIN_PROFILE 284
#define MERQYDUK_MAX_PROFILE 1200

/* The most bytes of a file that is read. */
#define MERQYDUK_MAX_FILE 1240

/* Of APP2 segments: the bytes in front of the data of each, the most data of one, the most segments of a file, and an output
 * that is enough for the segments of every file. */
#define MERQYDUK_SEGMENT_FRONT 18
#define MERQYDUK_MAX_SEGMENT_DATA 65519
#define MERQYDUK_MAX_SEGMENTS 255
#define MERQYDUK_MAX_SEGMENTS_LENGTH (MERQYDUK_MAX_FILE + MERQYDUK_MAX_SEGMENTS * MERQYDUK_SEGMENT_FRONT)

/* Where a profile's id stands, and its bytes. */
#define MERQYDUK_ID_OFFSET 84
#define MERQYDUK_ID_SIZE 16

/* Where a profile's maker and model stand, four bytes each. */
#define MERQYDUK_MAKER_OFFSET 48
#define MERQYDUK_MODEL_OFFSET 52

/* The bytes of an encoding's record. */
#define MERQYDUK_ENCODING_SIZE 41

/* Bytes of stack that are enough for every call. */
#define MERQYDUK_STACK 8192

#ifdef __cplusplus
extern "C" {
#endif

/* Color spaces, by the number of their section in a job. */
enum {
    MERQYDUK_SPACE_GRAY = 1,
    MERQYDUK_SPACE_RGB = 2,
    MERQYDUK_SPACE_XYB = 3
};

/* White points. wx and wy are read for MERQYDUK_WHITE_OWN only. */
enum {
    MERQYDUK_WHITE_D65 = 0,
    MERQYDUK_WHITE_E = 1,
    MERQYDUK_WHITE_DCI = 2,
    MERQYDUK_WHITE_OWN = 3
};

/* Primaries. The six coordinates are read for MERQYDUK_PRIMARIES_OWN only. */
enum {
    MERQYDUK_PRIMARIES_SRGB = 0,
    MERQYDUK_PRIMARIES_BT2100 = 1,
    MERQYDUK_PRIMARIES_P3 = 2,
    MERQYDUK_PRIMARIES_OWN = 3
};

/* Curves. gamma is read for MERQYDUK_CURVE_GAMMA only. */
enum {
    MERQYDUK_CURVE_BT709 = 0,
    MERQYDUK_CURVE_LINEAR = 1,
    MERQYDUK_CURVE_SRGB = 2,
    MERQYDUK_CURVE_PQ = 3,
    MERQYDUK_CURVE_DCI = 4,
    MERQYDUK_CURVE_HLG = 5,
    MERQYDUK_CURVE_GAMMA = 6
};

/* Rendering intents. */
enum {
    MERQYDUK_INTENT_PERCEPTUAL = 0,
    MERQYDUK_INTENT_RELATIVE = 1,
    MERQYDUK_INTENT_SATURATION = 2,
    MERQYDUK_INTENT_ABSOLUTE = 3
};

/* Refusals. merqyduk_refusal_text says what each means. */
enum {
    /* of writing */
    MERQYDUK_REFUSED_CURVE = 1,
    MERQYDUK_REFUSED_GRAY_WHITE = 3,
    MERQYDUK_REFUSED_RGB_WHITE = 4,
    MERQYDUK_REFUSED_ADAPTATION = 5,
    MERQYDUK_REFUSED_PRIMARIES = 6,
    MERQYDUK_REFUSED_XYZ = 7,
    MERQYDUK_REFUSED_GAMMA = 8,
    MERQYDUK_REFUSED_OUTPUT = 9,
    /* of reading a file */
    MERQYDUK_REFUSED_SHORT_FILE = 21,
    MERQYDUK_REFUSED_SIZE_FIELD = 22,
    MERQYDUK_REFUSED_HEADER = 23,
    MERQYDUK_REFUSED_INTENT_FIELD = 24,
    MERQYDUK_REFUSED_TAG_TABLE = 25,
    MERQYDUK_REFUSED_ELEMENTS = 26,
    MERQYDUK_REFUSED_RANGE = 27,
    MERQYDUK_REFUSED_ID = 28,
    /* of a job; 43 of any other call as well */
    MERQYDUK_REFUSED_JOB_EARLY = 41,
    MERQYDUK_REFUSED_JOB_LEFT = 42,
    MERQYDUK_REFUSED_MEANING = 43,
    /* of reading a text */
    MERQYDUK_REFUSED_TEXT = 51,
    MERQYDUK_REFUSED_ZERO_GAMMA = 52,
    /* of APP2 segments */
    MERQYDUK_REFUSED_SEGMENT_SIZE = 53,
    MERQYDUK_REFUSED_SEGMENTS = 54,
    MERQYDUK_REFUSED_SEGMENT_OUTPUT = 55
};

/* What a refusal means, as a constant ASCII text; any number has one. */
static inline const char *merqyduk_refusal_text(uint32_t refusal) {
    switch (refusal) {
    case MERQYDUK_REFUSED_CURVE:
        return "the curve is PQ or HLG";
    case MERQYDUK_REFUSED_GRAY_WHITE:
        return "gray with |wy| below 1e-12";
    case MERQYDUK_REFUSED_RGB_WHITE:
        return "RGB, or gray adapted, with a white outside 0 <= wx <= 1, 0 < wy <= 1, or one that cannot be adapted";
    case MERQYDUK_REFUSED_ADAPTATION:
        return "a number of the chromatic adaptation does not fit";
    case MERQYDUK_REFUSED_PRIMARIES:
        return "the primaries' matrix is singular";
    case MERQYDUK_REFUSED_XYZ:
        return "a number of a column, or of a gray white, does not fit";
    case MERQYDUK_REFUSED_GAMMA:
        return "the reciprocal of gamma does not fit";
    case MERQYDUK_REFUSED_OUTPUT:
        return "the output is shorter than what is to be written";
    case MERQYDUK_REFUSED_SHORT_FILE:
        return "the file is shorter than 132 bytes";
    case MERQYDUK_REFUSED_SIZE_FIELD:
        return "the size field differs from the length of the file";
    case MERQYDUK_REFUSED_HEADER:
        return "class and space are none that is written, or another byte of the header differs";
    case MERQYDUK_REFUSED_INTENT_FIELD:
        return "the intent is above 3";
    case MERQYDUK_REFUSED_TAG_TABLE:
        return "the tag table or the length is that of no profile of this class and space";
    case MERQYDUK_REFUSED_ELEMENTS:
        return "a byte of an element or of padding is none that is written";
    case MERQYDUK_REFUSED_RANGE:
        return "a number is outside its range";
    case MERQYDUK_REFUSED_ID:
        return "the id is neither the correct one nor sixteen zero bytes";
    case MERQYDUK_REFUSED_JOB_EARLY:
        return "the job ends early: a count or an entry is missing or cut";
    case MERQYDUK_REFUSED_JOB_LEFT:
        return "the job has bytes left after its third section";
    case MERQYDUK_REFUSED_MEANING:
        return "a space, kind, curve, intent or mark has no meaning";
    case MERQYDUK_REFUSED_TEXT:
        return "the text is no description of an encoding";
    case MERQYDUK_REFUSED_ZERO_GAMMA:
        return "a gamma in the text is zero";
    case MERQYDUK_REFUSED_SEGMENT_SIZE:
        return "the size of the segments' data is not 1 to 65519, or needs more than 255 segments";
    case MERQYDUK_REFUSED_SEGMENTS:
        return "the bytes are no complete APP2 segments of a profile";
    case MERQYDUK_REFUSED_SEGMENT_OUTPUT:
        return "the output is shorter than the segments, or than their data";
    case 0:
        return "no refusal, or no such entry in the job";
    default:
        return "not the number of a refusal";
    }
}

uint32_t merqyduk_write_gray(uint32_t white, float wx, float wy, uint32_t curve, float gamma, uint32_t intent,
                             uint8_t *out, size_t out_len);

uint32_t merqyduk_write_rgb(uint32_t white, float wx, float wy, uint32_t primaries, float rx, float ry, float gx,
                            float gy, float bx, float by, uint32_t curve, float gamma, uint32_t intent, uint8_t *out,
                            size_t out_len);

uint32_t merqyduk_write_xyb(uint32_t intent, uint8_t *out, size_t out_len);

/* The same with maker and model, which may be any numbers. Each of these calls answers what the one above without _device in
 * its name answers, and leaves the same output but for bytes 48 to 55 of the profile and its id; with zeros the output is the
 * same. The calls below that tell a length or a count need no maker and model: neither depends on them. */
uint32_t merqyduk_write_gray_device(uint32_t white, float wx, float wy, uint32_t curve, float gamma, uint32_t intent,
                                    uint32_t maker, uint32_t model, uint8_t *out, size_t out_len);

uint32_t merqyduk_write_rgb_device(uint32_t white, float wx, float wy, uint32_t primaries, float rx, float ry,
                                   float gx, float gy, float bx, float by, uint32_t curve, float gamma,
                                   uint32_t intent, uint32_t maker, uint32_t model, uint8_t *out, size_t out_len);

uint32_t merqyduk_write_xyb_device(uint32_t intent, uint32_t maker, uint32_t model, uint8_t *out, size_t out_len);

/* A profile's length before there is memory for it: what the calls above that write this kind would answer on an
 * output of `capacity` bytes, its refusals included. No output is needed or touched. With a capacity of SIZE_MAX
 * the answer is never MERQYDUK_REFUSED_OUTPUT. */
uint32_t merqyduk_length_gray(uint32_t white, float wx, float wy, uint32_t curve, float gamma, uint32_t intent,
                              size_t capacity);

uint32_t merqyduk_length_rgb(uint32_t white, float wx, float wy, uint32_t primaries, float rx, float ry, float gx,
                             float gy, float bx, float by, uint32_t curve, float gamma, uint32_t intent,
                             size_t capacity);

uint32_t merqyduk_length_xyb(uint32_t intent, size_t capacity);

/* How many of the profile's numbers were rounded. Each of these calls answers what the one above without _counted in its
 * name answers, and leaves the same output. Where the answer is a length, *rounded becomes how many fixed numbers of the
 * profile were made from a float that is no whole number of 65536ths. Both zeros are whole; a float that is rounded to 0 is
 * not. Looked at are, constants of the library included,
 *    RGB   26 numbers: 3 of wtpt, 9 of chad, 9 of the columns, 5 of the curve, which stands once for all colors;
 *          22 with a gamma, whose curve has 1
 *    gray  8 numbers: 3 of wtpt, 5 of the curve; 4 with a gamma;
 *          where it is adapted, 9 of chad besides: 17, and 13 with a gamma
 *    XYB   45 numbers: 3 of wtpt, 9 of chad, 30 of A2B0, 3 of B2A0
 * and not the white in the header. On every refusal *rounded is unchanged; the pointer must be valid even then. */
uint32_t merqyduk_write_gray_counted(uint32_t white, float wx, float wy, uint32_t curve, float gamma, uint32_t intent,
                                     uint8_t *out, size_t out_len, uint32_t *rounded);

uint32_t merqyduk_write_rgb_counted(uint32_t white, float wx, float wy, uint32_t primaries, float rx, float ry,
                                    float gx, float gy, float bx, float by, uint32_t curve, float gamma,
                                    uint32_t intent, uint8_t *out, size_t out_len, uint32_t *rounded);

uint32_t merqyduk_write_xyb_counted(uint32_t intent, uint8_t *out, size_t out_len, uint32_t *rounded);

uint32_t merqyduk_length_gray_counted(uint32_t white, float wx, float wy, uint32_t curve, float gamma, uint32_t intent,
                                      size_t capacity, uint32_t *rounded);

uint32_t merqyduk_length_rgb_counted(uint32_t white, float wx, float wy, uint32_t primaries, float rx, float ry,
                                     float gx, float gy, float bx, float by, uint32_t curve, float gamma,
                                     uint32_t intent, size_t capacity, uint32_t *rounded);

uint32_t merqyduk_length_xyb_counted(uint32_t intent, size_t capacity, uint32_t *rounded);

/* Gray with the mark, with maker and model and with a count. `adapted` is 0 or 1; any other number is answered
 * MERQYDUK_REFUSED_MEANING. With 0 the first call answers what merqyduk_write_gray_device answers and leaves the same output,
 * the second answers what merqyduk_length_gray answers, and *rounded becomes what the two gray calls above make it. With 1
 * the profile has D50 in wtpt and, as the next element, the chad of an RGB profile of the same white; after 43 are tested 1,
 * then 4 and 5 as for that RGB profile, then 8 and 9. On every refusal *rounded is unchanged; the pointer must be valid even
 * then. */
uint32_t merqyduk_write_gray_adapted(uint32_t white, float wx, float wy, uint32_t curve, float gamma, uint32_t intent,
                                     uint32_t adapted, uint32_t maker, uint32_t model, uint8_t *out, size_t out_len,
                                     uint32_t *rounded);

uint32_t merqyduk_length_gray_adapted(uint32_t white, float wx, float wy, uint32_t curve, float gamma, uint32_t intent,
                                      uint32_t adapted, size_t capacity, uint32_t *rounded);

/* ---- an encoding as one value */

/* An encoding. A member that a space does not use is not read, and is 0 where a call fills the struct. Every space uses maker
 * and model; a call that fills the struct sets them and the mark to 0. */
struct merqyduk_encoding {
    uint32_t space;      /* MERQYDUK_SPACE_... */
    uint32_t white;      /* gray and RGB: MERQYDUK_WHITE_... */
    float wx, wy;        /* of MERQYDUK_WHITE_OWN */
    uint32_t primaries;  /* RGB: MERQYDUK_PRIMARIES_... */
    float rx, ry, gx, gy, bx, by; /* of MERQYDUK_PRIMARIES_OWN */
    uint32_t curve;      /* gray and RGB: MERQYDUK_CURVE_... */
    float gamma;         /* of MERQYDUK_CURVE_GAMMA */
    uint32_t intent;     /* MERQYDUK_INTENT_... */
    uint32_t maker, model; /* any numbers */
    uint32_t adapted;    /* gray: 1 or 0 */
};

/* What the call that writes this space with maker and model, gray with the mark, answers, and what the one that tells its
 * length answers; MERQYDUK_REFUSED_MEANING before all else where the space has no meaning. */
static inline uint32_t merqyduk_write(const struct merqyduk_encoding *e, uint8_t *out, size_t out_len) {
    uint32_t rounded;
    switch (e->space) {
    case MERQYDUK_SPACE_GRAY:
        return merqyduk_write_gray_adapted(e->white, e->wx, e->wy, e->curve, e->gamma, e->intent, e->adapted, e->maker,
                                           e->model, out, out_len, &rounded);
    case MERQYDUK_SPACE_RGB:
        return merqyduk_write_rgb_device(e->white, e->wx, e->wy, e->primaries, e->rx, e->ry, e->gx, e->gy, e->bx,
                                         e->by, e->curve, e->gamma, e->intent, e->maker, e->model, out, out_len);
    case MERQYDUK_SPACE_XYB:
        return merqyduk_write_xyb_device(e->intent, e->maker, e->model, out, out_len);
    default:
        return MERQYDUK_REFUSED_MEANING;
    }
}

static inline uint32_t merqyduk_length(const struct merqyduk_encoding *e, size_t capacity) {
    uint32_t rounded;
    switch (e->space) {
    case MERQYDUK_SPACE_GRAY:
        return merqyduk_length_gray_adapted(e->white, e->wx, e->wy, e->curve, e->gamma, e->intent, e->adapted, capacity,
                                            &rounded);
    case MERQYDUK_SPACE_RGB:
        return merqyduk_length_rgb(e->white, e->wx, e->wy, e->primaries, e->rx, e->ry, e->gx, e->gy, e->bx, e->by,
                                   e->curve, e->gamma, e->intent, capacity);
    case MERQYDUK_SPACE_XYB:
        return merqyduk_length_xyb(e->intent, capacity);
    default:
        return MERQYDUK_REFUSED_MEANING;
    }
}

/* The same with a count. */
static inline uint32_t merqyduk_length_counted(const struct merqyduk_encoding *e, size_t capacity, uint32_t *rounded) {
    switch (e->space) {
    case MERQYDUK_SPACE_GRAY:
        return merqyduk_length_gray_adapted(e->white, e->wx, e->wy, e->curve, e->gamma, e->intent, e->adapted, capacity,
                                            rounded);
    case MERQYDUK_SPACE_RGB:
        return merqyduk_length_rgb_counted(e->white, e->wx, e->wy, e->primaries, e->rx, e->ry, e->gx, e->gy, e->bx,
                                           e->by, e->curve, e->gamma, e->intent, capacity, rounded);
    case MERQYDUK_SPACE_XYB:
        return merqyduk_length_xyb_counted(e->intent, capacity, rounded);
    default:
        return MERQYDUK_REFUSED_MEANING;
    }
}

static inline uint32_t merqyduk_write_counted(const struct merqyduk_encoding *e, uint8_t *out, size_t out_len,
                                              uint32_t *rounded) {
    if (e->space == MERQYDUK_SPACE_GRAY)
        return merqyduk_write_gray_adapted(e->white, e->wx, e->wy, e->curve, e->gamma, e->intent, e->adapted, e->maker,
                                           e->model, out, out_len, rounded);
    if (e->maker != 0 || e->model != 0) {
        merqyduk_length_counted(e, out_len, rounded); /* the count does not depend on maker and model */
        return merqyduk_write(e, out, out_len);
    }
    switch (e->space) {
    case MERQYDUK_SPACE_RGB:
        return merqyduk_write_rgb_counted(e->white, e->wx, e->wy, e->primaries, e->rx, e->ry, e->gx, e->gy, e->bx,
                                          e->by, e->curve, e->gamma, e->intent, out, out_len, rounded);
    case MERQYDUK_SPACE_XYB:
        return merqyduk_write_xyb_counted(e->intent, out, out_len, rounded);
    default:
        return MERQYDUK_REFUSED_MEANING;
    }
}

/* A record is an encoding as MERQYDUK_ENCODING_SIZE bytes: the space, and then the 40 bytes of an RGB entry of a job:
 * white, wx, wy, primaries, rx, ry, gx, gy, bx, by, curve, gamma, intent; a number is one byte and a float its four bytes,
 * the most significant first. What the space does not use is 0. Maker, model and mark are not in it. */

static inline float merqyduk_record_float(const uint8_t *at) {
    const uint32_t bits = (uint32_t)at[0] << 24 | (uint32_t)at[1] << 16 | (uint32_t)at[2] << 8 | at[3];
    float value;
    memcpy(&value, &bits, sizeof value);
    return value;
}

/* Fills the struct from the bytes of a record and answers 0. Or it answers MERQYDUK_REFUSED_MEANING where the space has no
 * meaning, and the struct is unchanged. The other numbers are taken as they are; the calls that write refuse them. */
static inline uint32_t merqyduk_encoding_from_record(const uint8_t *record, struct merqyduk_encoding *e) {
    if (record[0] < MERQYDUK_SPACE_GRAY || record[0] > MERQYDUK_SPACE_XYB) return MERQYDUK_REFUSED_MEANING;
    e->space = record[0];
    e->white = record[1];
    e->wx = merqyduk_record_float(record + 2);
    e->wy = merqyduk_record_float(record + 6);
    e->primaries = record[10];
    e->rx = merqyduk_record_float(record + 11);
    e->ry = merqyduk_record_float(record + 15);
    e->gx = merqyduk_record_float(record + 19);
    e->gy = merqyduk_record_float(record + 23);
    e->bx = merqyduk_record_float(record + 27);
    e->by = merqyduk_record_float(record + 31);
    e->curve = record[35];
    e->gamma = merqyduk_record_float(record + 36);
    e->intent = record[40];
    e->maker = 0;
    e->model = 0;
    e->adapted = 0;
    return 0;
}

/* ---- an encoding typed as a text
 *
 * The text is the description of an encoding, as a profile holds it in desc and as jxl-rs has it:
 *    RGB_WHITE_PRIMARIES_INTENT_CURVE, Gra_WHITE_INTENT_CURVE or XYB_INTENT
 *    WHITE      D65, EER, DCI or x;y
 *    PRIMARIES  SRG, 202, DCI or x,y;x,y;x,y for red, green and blue
 *    INTENT     Per, Rel, Sat or Abs
 *    CURVE      709, Lin, SRG, PeQ, DCI, HLG or g and a gamma
 * or a common name. Such a name stands in place of its long form, which is then no description:
 *    sRGB        RGB_D65_SRG_Per_SRG
 *    DisplayP3   RGB_D65_DCI_Per_SRG
 *    Rec2100PQ   RGB_D65_202_Rel_PeQ
 *    Rec2100HLG  RGB_D65_202_Rel_HLG
 * A coordinate or a gamma is an optional minus, one or two whole digits, of two the first not 0, a point and seven
 * digits: 0.3127000. It means the nearest float; -0.0000000 means negative zero. Letters are upper or lower case as above,
 * and there is nothing before, between or after. */

/* Reads a text, which need not end in a NUL, into a record: answers 0, and the record stands at the front of what is lent,
 * the rest unchanged. Or it answers, tested in this order, MERQYDUK_REFUSED_TEXT where the text is no description,
 * MERQYDUK_REFUSED_ZERO_GAMMA where it is one whose gamma is zero of either sign, or MERQYDUK_REFUSED_OUTPUT where less is
 * lent than MERQYDUK_ENCODING_SIZE bytes; and all that is lent is unchanged. PQ and HLG are read; the calls that write
 * refuse them. */
uint32_t merqyduk_parse_description(const uint8_t *text, size_t text_len, uint8_t *record, size_t record_len);

/* The same into a struct, which is unchanged where the text is refused: merqyduk_parse("sRGB", 4, &encoding). */
static inline uint32_t merqyduk_parse(const char *text, size_t text_len, struct merqyduk_encoding *e) {
    uint8_t record[MERQYDUK_ENCODING_SIZE];
    const uint32_t refusal = merqyduk_parse_description((const uint8_t *)text, text_len, record, sizeof record);
    return refusal ? refusal : merqyduk_encoding_from_record(record, e);
}

/* ---- jobs */

/* A job is a list of color encodings as bytes: three sections, gray, RGB and XYB, each a count of one byte and then as
 * many entries. docs/JOB.md has the bytes; the numbers in them are those above. A job is refused as a whole: 41 and 42
 * are tested over the whole job before 43 is tested anywhere. Each call looks at the whole job again. */

/* Answers 0 and sets *entries to the number of entries of all sections. Or it answers 41, 42 or 43, and *entries is
 * unchanged. */
uint32_t merqyduk_job(const uint8_t *job, size_t job_len, uint32_t *entries);

/* Writes the profile of entry i, counted from 0 over all sections. A refusal of another entry, 1 or 3 to 9, does not touch
 * this one. */
uint32_t merqyduk_job_profile(const uint8_t *job, size_t job_len, size_t i, uint8_t *out, size_t out_len);

/* ---- files: a profile read, and its elements found. */

/* A plan: all that a profile of the library says. Fixed numbers are 65536ths. A member that a kind does not use is 0. */
struct merqyduk_plan {
    uint32_t kind;       /* 1 gray, 2 RGB, 3 XYB, which of the others uses intent, maker, model and id_not_computed alone */
    uint32_t intent;     /* MERQYDUK_INTENT_... */
    uint32_t maker;      /* maker and model, of every kind: any numbers */
    uint32_t model;
    uint32_t id_not_computed; /* 1: sixteen zero bytes stand in place of the id; 0: the id is the correct one */
    uint32_t curve;      /* MERQYDUK_CURVE_... */
    int32_t gamma;       /* the fixed number of 1/gamma; 0 for a named curve */
    uint32_t cicp;       /* RGB: the ColourPrimaries value of the cicp tag; 0 where there is none */
    uint32_t adapted;    /* gray: 1 where the white is adapted to D50, 0 where it is the encoding's own */
    int32_t white_x;     /* gray that is not adapted: X and Z of the white; its Y is 65536 */
    int32_t white_z;
    int32_t chad[9];     /* RGB, and gray that is adapted: the chromatic adaptation, by rows */
    int32_t columns[9];  /* RGB: the red, the green and the blue column */
    uint32_t letters;    /* the letters of the text, at most 372 */
    uint8_t text[372];   /* ASCII, not NUL-terminated; 0 after the last letter */
};

/* Reads the file into a struct merqyduk_plan: merqyduk_read(file, file_len, &plan, sizeof plan). Answers 0, and the plan is
 * the one whose profile has exactly these bytes; where more is lent than the struct, the rest is unchanged. Or it answers 21
 * to 28, or 9 where less is lent than the struct, tested in this order, and all that is lent is unchanged. The correct id is
 * tried first, then sixteen zero bytes, which set id_not_computed; 28 is left for any other id. */
uint32_t merqyduk_read(const uint8_t *file, size_t file_len, void *plan, size_t plan_len);

/* Answers the size of the element of a tag and sets *offset to its place in the file. signature is the four bytes of the
 * tag's name as one number, the first byte the most significant: 0x64657363 is desc. Or it answers 0, where merqyduk_read
 * refuses the file or the file has no such tag, and *offset is unchanged. */
uint32_t merqyduk_find(const uint8_t *file, size_t file_len, uint32_t signature, uint32_t *offset);

/* ---- a profile in APP2 segments of a JPEG file
 *
 * A segment is FF E2, a length of two bytes that counts itself and all that follows it, the letters ICC_PROFILE and a zero
 * byte, a sequence number, the count of segments, and data. Segments are complete where each count is their number and the
 * sequence numbers are 1 to that, each once. In a JPEG file they stand after its first two bytes, FF D8, and other segments
 * may stand before and between them; here they follow one another with nothing before, between or after. */

/* Puts a file into segments of `size` bytes of data; the last alone may have fewer. Answers the length of all, which is
 * file_len and MERQYDUK_SEGMENT_FRONT for each segment, and they stand at the front of the output by their numbers; the rest
 * of the output is unchanged. Or it answers, tested in this order, what merqyduk_read refuses the file by, 21 to 28; 53
 * where size is not 1 to MERQYDUK_MAX_SEGMENT_DATA or the file needs more than MERQYDUK_MAX_SEGMENTS segments; 55 where the
 * output is shorter than the segments; and all of the output is unchanged. A size of MERQYDUK_MAX_SEGMENT_DATA gives one
 * segment. */
uint32_t merqyduk_write_segments(const uint8_t *file, size_t file_len, size_t size, uint8_t *out, size_t out_len);

/* Joins segments to the file that they hold, whatever their order and the size of their data, which may be 0. Answers the
 * file's length, and the file stands at the front of the output; the rest of the output is unchanged. Or it answers, tested
 * in this order, 54 where there is no segment or the bytes are not complete segments and nothing else; 55 where the output
 * is shorter than their data; 21 to 28 where merqyduk_read refuses the data; and all of the output is unchanged. An output
 * of MERQYDUK_MAX_FILE bytes is enough for every file; more data than that is no file, and is then answered 55. */
uint32_t merqyduk_join_segments(const uint8_t *segments, size_t segments_len, uint8_t *out, size_t out_len);

#ifdef __cplusplus
}
#endif

#endif
