/* The conformance list's program over include/merqyduk.h: reads encodings, prints profiles. README.md here has the form of both. It also looks
 * after the bytes that a call must leave alone: all of the output on a refusal, those past the profile else, and on a refusal a lent count. */
#include <inttypes.h>
#include <stdio.h>
#include <stdlib.h>
#include <string.h>

#include "merqyduk.h"

/* What the output holds before a call, and how many bytes there are after it that no call may touch. */
enum { UNTOUCHED = 0xa5, GUARD = 64, MOST_ROOM = 4096 };

struct encoding {
    size_t room;
    uint32_t kind, white, primaries, curve, intent;
    /* wx, wy, rx, ry, gx, gy, bx, by, gamma, by their bits */
    uint32_t bits[9];
};

static int read_encoding(const char *line, struct encoding *e)
{
    uint32_t *b = e->bits;
    int used = 0;
    int fields = sscanf(line,
                        "%zu %" SCNu32 " %" SCNu32 " %" SCNx32 " %" SCNx32 " %" SCNu32 " %" SCNx32 " %" SCNx32 " %" SCNx32 " %" SCNx32 " %" SCNx32
                        " %" SCNx32 " %" SCNu32 " %" SCNx32 " %" SCNu32 " %n",
                        &e->room, &e->kind, &e->white, &b[0], &b[1], &e->primaries, &b[2], &b[3], &b[4], &b[5], &b[6], &b[7], &e->curve, &b[8],
                        &e->intent, &used);
    return fields == 15 && line[used] == '\0' && e->room <= MOST_ROOM;
}

/* A call that lends no count leaves it alone as well. */
static uint32_t write_profile(const struct encoding *e, uint8_t *out, uint32_t *rounded)
{
    float f[9];
    memcpy(f, e->bits, sizeof f);
    switch (e->kind) {
    case 1:
        return merqyduk_write_gray(e->white, f[0], f[1], e->curve, f[8], e->intent, out, e->room);
    case 2:
        return merqyduk_write_rgb(e->white, f[0], f[1], e->primaries, f[2], f[3], f[4], f[5], f[6], f[7], e->curve, f[8], e->intent, out, e->room);
    case 3:
        return merqyduk_write_xyb(e->intent, out, e->room);
    case 4:
        return merqyduk_write_gray_adapted(e->white, f[0], f[1], e->curve, f[8], e->intent, 1, 0, 0, out, e->room, rounded);
    default:
        return 43;
    }
}

/* The first byte from a place on that is no longer as it was, or the end. */
static size_t changed_from(const uint8_t *out, size_t at, size_t end)
{
    while (at < end && out[at] == UNTOUCHED) {
        at++;
    }
    return at;
}

int main(void)
{
    static uint8_t out[MOST_ROOM + GUARD];
    char line[512];
    struct encoding e;
    while (fgets(line, sizeof line, stdin)) {
        if (!read_encoding(line, &e)) {
            fprintf(stderr, "no encoding: %s", line);
            return 2;
        }
        size_t end = e.room + GUARD;
        memset(out, UNTOUCHED, end);
        uint32_t rounded = UNTOUCHED;
        uint32_t answer = write_profile(&e, out, &rounded);
        size_t written = answer >= 284 ? answer : 0;
        size_t changed = changed_from(out, written, end);
        if (written > e.room || changed != end) {
            printf("answered %" PRIu32 ", byte %zu of the output changed\n", answer, changed);
        } else if (written == 0 && rounded != UNTOUCHED) {
            printf("answered %" PRIu32 ", the count changed\n", answer);
        } else if (written == 0) {
            printf("refused %" PRIu32 "\n", answer);
        } else {
            for (size_t i = 0; i < written; i++) {
                printf("%02x", out[i]);
            }
            putchar('\n');
        }
    }
    return 0;
}
