/* Measures how much stack each call of merqyduk.h takes, with what it calls: paints the stack below, calls, and looks how far down the paint is
 * gone. The largest of many encodings is printed for each call. Fails where one is above MERQYDUK_STACK. Link with -Wl,-z,now: a first
 * call through the dynamic linker would count as well. */
#include "merqyduk.h"

#include <stdio.h>
#include <string.h>

enum { DEPTH = 16384, PAINT = 0xa5, LONG_DATA = 3000 };

struct arguments {
    uint32_t white, primaries, curve, intent, maker, model, adapted;
    float floats[9]; /* wx wy rx ry gx gy bx by gamma */
    const uint8_t *job;
    size_t job_len, i;
    uint8_t out[MERQYDUK_MAX_PROFILE];
    uint32_t rounded;
    /* The last profile that was written, which is read, and its plan. */
    uint8_t file[MERQYDUK_MAX_PROFILE];
    size_t file_len;
    struct merqyduk_plan plan;
    /* A text that is typed, and its record. */
    const uint8_t *text;
    size_t text_len;
    uint8_t record[MERQYDUK_ENCODING_SIZE];
    /* The data of a segment that is written; segments that are joined, and what lends room to either. */
    size_t size;
    uint8_t row[LONG_DATA + MERQYDUK_MAX_SEGMENTS * MERQYDUK_SEGMENT_FRONT];
    size_t row_len;
    uint8_t lent[MERQYDUK_MAX_SEGMENTS_LENGTH];
};

typedef void call(struct arguments *a);

static void nothing(struct arguments *a) { (void)a; }

static void gray(struct arguments *a) {
    merqyduk_write_gray(a->white, a->floats[0], a->floats[1], a->curve, a->floats[8], a->intent, a->out, sizeof a->out);
}

static void rgb(struct arguments *a) {
    const float *f = a->floats;
    merqyduk_write_rgb(a->white, f[0], f[1], a->primaries, f[2], f[3], f[4], f[5], f[6], f[7], a->curve, f[8], a->intent,
                       a->out, sizeof a->out);
}

static void xyb(struct arguments *a) { merqyduk_write_xyb(a->intent, a->out, sizeof a->out); }

static void length_gray(struct arguments *a) {
    merqyduk_length_gray(a->white, a->floats[0], a->floats[1], a->curve, a->floats[8], a->intent, sizeof a->out);
}

static void length_rgb(struct arguments *a) {
    const float *f = a->floats;
    merqyduk_length_rgb(a->white, f[0], f[1], a->primaries, f[2], f[3], f[4], f[5], f[6], f[7], a->curve, f[8], a->intent,
                        sizeof a->out);
}

static void length_xyb(struct arguments *a) { merqyduk_length_xyb(a->intent, sizeof a->out); }

static void gray_counted(struct arguments *a) {
    merqyduk_write_gray_counted(a->white, a->floats[0], a->floats[1], a->curve, a->floats[8], a->intent, a->out, sizeof a->out,
                                &a->rounded);
}

static void rgb_counted(struct arguments *a) {
    const float *f = a->floats;
    merqyduk_write_rgb_counted(a->white, f[0], f[1], a->primaries, f[2], f[3], f[4], f[5], f[6], f[7], a->curve, f[8], a->intent,
                               a->out, sizeof a->out, &a->rounded);
}

static void xyb_counted(struct arguments *a) { merqyduk_write_xyb_counted(a->intent, a->out, sizeof a->out, &a->rounded); }

static void length_gray_counted(struct arguments *a) {
    merqyduk_length_gray_counted(a->white, a->floats[0], a->floats[1], a->curve, a->floats[8], a->intent, sizeof a->out,
                                 &a->rounded);
}

static void length_rgb_counted(struct arguments *a) {
    const float *f = a->floats;
    merqyduk_length_rgb_counted(a->white, f[0], f[1], a->primaries, f[2], f[3], f[4], f[5], f[6], f[7], a->curve, f[8], a->intent,
                                sizeof a->out, &a->rounded);
}

static void length_xyb_counted(struct arguments *a) { merqyduk_length_xyb_counted(a->intent, sizeof a->out, &a->rounded); }

static void gray_device(struct arguments *a) {
    merqyduk_write_gray_device(a->white, a->floats[0], a->floats[1], a->curve, a->floats[8], a->intent, a->maker, a->model, a->out,
                               sizeof a->out);
}

static void rgb_device(struct arguments *a) {
    const float *f = a->floats;
    merqyduk_write_rgb_device(a->white, f[0], f[1], a->primaries, f[2], f[3], f[4], f[5], f[6], f[7], a->curve, f[8], a->intent,
                              a->maker, a->model, a->out, sizeof a->out);
}

static void xyb_device(struct arguments *a) {
    merqyduk_write_xyb_device(a->intent, a->maker, a->model, a->out, sizeof a->out);
}

static uint32_t write_adapted(struct arguments *a) {
    return merqyduk_write_gray_adapted(a->white, a->floats[0], a->floats[1], a->curve, a->floats[8], a->intent, a->adapted, a->maker,
                                       a->model, a->out, sizeof a->out, &a->rounded);
}

static void gray_adapted(struct arguments *a) { write_adapted(a); }

static void length_gray_adapted(struct arguments *a) {
    merqyduk_length_gray_adapted(a->white, a->floats[0], a->floats[1], a->curve, a->floats[8], a->intent, a->adapted, sizeof a->out,
                                 &a->rounded);
}

static void job(struct arguments *a) {
    uint32_t entries;
    merqyduk_job(a->job, a->job_len, &entries);
}

static void job_profile(struct arguments *a) {
    merqyduk_job_profile(a->job, a->job_len, a->i, a->out, sizeof a->out);
}

static void read_plan(struct arguments *a) { merqyduk_read(a->file, a->file_len, &a->plan, sizeof a->plan); }

static void find(struct arguments *a) {
    uint32_t offset;
    merqyduk_find(a->file, a->file_len, 0x64657363, &offset); /* desc */
}

static void parse(struct arguments *a) {
    merqyduk_parse_description(a->text, a->text_len, a->record, sizeof a->record);
}

static void write_segments(struct arguments *a) {
    merqyduk_write_segments(a->file, a->file_len, a->size, a->lent, sizeof a->lent);
}

static void join_segments(struct arguments *a) { merqyduk_join_segments(a->row, a->row_len, a->lent, sizeof a->lent); }

/* The bytes below this function's own stack that the call has changed. */
__attribute__((noinline)) static size_t depth(call *make, struct arguments *a) {
    volatile uint8_t *top;
    __asm__ volatile("mov %%rsp, %0" : "=r"(top));
    for (size_t i = 1; i <= DEPTH; i++) top[-(ptrdiff_t)i] = PAINT;
    make(a);
    size_t deepest = DEPTH;
    while (deepest > 0 && top[-(ptrdiff_t)deepest] == PAINT) deepest--;
    return deepest;
}

static uint32_t random_bits(void) {
    static uint64_t state = 1;
    state = state * 6364136223846793005u + 1442695040888963407u;
    return (uint32_t)(state >> 32);
}

/* A coordinate or a gamma: in range, or any float. */
static float random_float(void) {
    uint32_t bits = random_bits();
    float any;
    memcpy(&any, &bits, sizeof any);
    return random_bits() % 4 ? (float)(random_bits() >> 8) / 16777216 : any;
}

static void put_float(uint8_t *at, float value) {
    uint32_t bits;
    memcpy(&bits, &value, sizeof bits);
    for (int i = 0; i < 4; i++) at[i] = (uint8_t)(bits >> (24 - 8 * i));
}

/* A job with the encoding as its gray, RGB and XYB entry. */
static void fill_job(const struct arguments *a, uint8_t bytes[59]) {
    memset(bytes, 0, 59);
    bytes[0] = bytes[16] = bytes[57] = 1;
    for (int rgb = 0; rgb < 2; rgb++) {
        uint8_t *entry = bytes + (rgb ? 17 : 1);
        entry[0] = (uint8_t)a->white;
        put_float(entry + 1, a->floats[0]);
        put_float(entry + 5, a->floats[1]);
        entry += 9;
        if (rgb) {
            *entry++ = (uint8_t)a->primaries;
            for (int i = 2; i < 8; i++, entry += 4) put_float(entry, a->floats[i]);
        }
        entry[0] = (uint8_t)a->curve;
        put_float(entry + 1, a->floats[8]);
        entry[5] = (uint8_t)a->intent;
    }
}

/* Puts the data into so many segments, the last of them first. */
static void fill_segments(struct arguments *a, const uint8_t *data, size_t length, size_t count) {
    const size_t size = length / count;
    uint8_t *at = a->row;
    for (size_t i = count; i > 0; i--) {
        const size_t from = (i - 1) * size, bytes = i == count ? length - from : size;
        const uint8_t start[] = {0xff, 0xe2, (uint8_t)((bytes + 16) >> 8), (uint8_t)(bytes + 16)};
        memcpy(at, start, 4);
        memcpy(at + 4, "ICC_PROFILE", 12);
        at[16] = (uint8_t)i;
        at[17] = (uint8_t)count;
        memcpy(at + MERQYDUK_SEGMENT_FRONT, data + from, bytes);
        at += MERQYDUK_SEGMENT_FRONT + bytes;
    }
    a->row_len = (size_t)(at - a->row);
}

/* The last profile in some segments or in all that there can be. Or more data than a file has, with that profile's header and a size field
 * that is right, which the reader refuses last of all such data. Answers whether it is joined. */
static int choose_segments(struct arguments *a) {
    uint8_t data[LONG_DATA] = {0};
    const size_t count = random_bits() % 2 ? MERQYDUK_MAX_SEGMENTS : 1 + random_bits() % MERQYDUK_MAX_SEGMENTS;
    a->size = 1 + random_bits() % 400;
    memcpy(data, a->file, a->file_len);
    if (random_bits() % 2) {
        fill_segments(a, a->file, a->file_len, count);
    } else {
        data[2] = LONG_DATA >> 8;
        data[3] = LONG_DATA & 255;
        fill_segments(a, data, LONG_DATA, count);
    }
    return merqyduk_join_segments(a->row, a->row_len, a->lent, sizeof a->lent) >= MERQYDUK_MIN_PROFILE;
}

int main(void) {
    static const struct {
        const char *name;
        call *make;
    } calls[] = {{"nothing", nothing},
                 {"merqyduk_write_gray", gray},
                 {"merqyduk_write_rgb", rgb},
                 {"merqyduk_write_xyb", xyb},
                 {"merqyduk_length_gray", length_gray},
                 {"merqyduk_length_rgb", length_rgb},
                 {"merqyduk_length_xyb", length_xyb},
                 {"merqyduk_write_gray_counted", gray_counted},
                 {"merqyduk_write_rgb_counted", rgb_counted},
                 {"merqyduk_write_xyb_counted", xyb_counted},
                 {"merqyduk_length_gray_counted", length_gray_counted},
                 {"merqyduk_length_rgb_counted", length_rgb_counted},
                 {"merqyduk_length_xyb_counted", length_xyb_counted},
                 {"merqyduk_write_gray_device", gray_device},
                 {"merqyduk_write_rgb_device", rgb_device},
                 {"merqyduk_write_xyb_device", xyb_device},
                 {"merqyduk_write_gray_adapted", gray_adapted},
                 {"merqyduk_length_gray_adapted", length_gray_adapted},
                 {"merqyduk_job", job},
                 {"merqyduk_job_profile", job_profile},
                 {"merqyduk_read", read_plan},
                 {"merqyduk_find", find},
                 {"merqyduk_parse_description", parse},
                 {"merqyduk_write_segments", write_segments},
                 {"merqyduk_join_segments", join_segments}};
    enum { CALLS = sizeof calls / sizeof calls[0], ENCODINGS = 10000 };
    size_t most[CALLS] = {0};
    static struct arguments a;
    uint8_t bytes[59];
    /* Descriptions of each kind, the longest among them. */
    static const char *const typed[] = {"sRGB", "XYB_Abs", "Gra_0.3457000;0.3585000_Rel_g0.4545455",
                                        "RGB_-99.9999999;-99.9999999_-99.9999999,-99.9999999;-99.9999999,-99.9999999;"
                                        "-99.9999999,-99.9999999_Sat_g-99.9999999"};
    int accepted = 0, read = 0, joined = 0;
    a.job = bytes;
    a.job_len = sizeof bytes;
    for (int n = 0; n < ENCODINGS; n++) {
        a.white = random_bits() % 4;
        a.primaries = random_bits() % 4;
        a.curve = random_bits() % 7;
        a.intent = random_bits() % 4;
        a.maker = random_bits();
        a.model = random_bits();
        a.adapted = random_bits() % 2;
        for (int i = 0; i < 9; i++) a.floats[i] = random_float();
        a.i = random_bits() % 4;
        fill_job(&a, bytes);
        /* The job has three entries; in place of a fourth, gray with the mark or without. */
        uint32_t length = a.i == 3 ? write_adapted(&a) : merqyduk_job_profile(bytes, sizeof bytes, a.i, a.out, sizeof a.out);
        if (length >= MERQYDUK_MIN_PROFILE) {
            memcpy(a.file, a.out, length);
            a.file_len = length;
            /* Every other one without an id, which is read too. */
            if (accepted % 2) memset(a.file + MERQYDUK_ID_OFFSET, 0, MERQYDUK_ID_SIZE);
            if (merqyduk_read(a.file, length, &a.plan, sizeof a.plan) == 0) accepted++;
        }
        /* One of these, or what the last profile says. */
        const char *text = typed[random_bits() % 4];
        if (random_bits() % 2) {
            a.text = a.plan.text;
            a.text_len = a.plan.letters;
        } else {
            a.text = (const uint8_t *)text;
            a.text_len = strlen(text);
        }
        if (merqyduk_parse_description(a.text, a.text_len, a.record, sizeof a.record) == 0) read++;
        joined += choose_segments(&a);
        for (int i = 0; i < CALLS; i++) {
            size_t d = depth(calls[i].make, &a);
            if (d > most[i]) most[i] = d;
        }
    }
    int failed = 0;
    printf("stack: %d of the encodings led to a profile that was read, %d texts were read, and %d profiles joined\n", accepted, read, joined);
    for (int i = 0; i < CALLS; i++) {
        printf("stack: %-28s %5zu bytes at most over %d encodings\n", calls[i].name, most[i], ENCODINGS);
        if (most[i] > MERQYDUK_STACK) failed = 1;
    }
    if (failed) printf("FAILED: a call takes more than MERQYDUK_STACK, %d bytes\n", MERQYDUK_STACK);
    return failed;
}
