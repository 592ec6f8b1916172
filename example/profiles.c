/* Writes the profiles of sRGB, of sRGB for a device and of an own encoding to files, prints their lengths and ids, and shows a
 * count of numbers that were rounded and a refusal.
 *
 *    cc -o profiles profiles.c $(pkg-config --cflags --libs merqyduk)
 *    ./profiles
 */
#include <merqyduk.h>

#include <stdio.h>

/* Takes what a call answered. Returns 0 if the profile was written and saved. */
static int save(const char *name, uint32_t answer, const uint8_t *profile) {
    if (answer < MERQYDUK_MIN_PROFILE) {
        printf("%s: refused %u, %s\n", name, (unsigned)answer, merqyduk_refusal_text(answer));
        return 1;
    }
    FILE *file = fopen(name, "wb");
    if (!file) {
        perror(name);
        return 1;
    }
    size_t written = fwrite(profile, 1, answer, file);
    if (fclose(file) != 0 || written != answer) {
        perror(name);
        return 1;
    }
    printf("%s: %u bytes, id ", name, (unsigned)answer);
    for (int i = 0; i < MERQYDUK_ID_SIZE; i++) printf("%02x", profile[MERQYDUK_ID_OFFSET + i]);
    printf("\n");
    return 0;
}

int main(void) {
    uint8_t profile[MERQYDUK_MAX_PROFILE];
    int failed = 0;

    /* sRGB. Coordinates and gamma are not read where white, primaries and curve have names. */
    uint32_t answer = merqyduk_write_rgb(MERQYDUK_WHITE_D65, 0, 0,                     /* white */
                                         MERQYDUK_PRIMARIES_SRGB, 0, 0, 0, 0, 0, 0,    /* primaries */
                                         MERQYDUK_CURVE_SRGB, 0,                       /* curve */
                                         MERQYDUK_INTENT_PERCEPTUAL, profile, sizeof profile);
    failed |= save("srgb.icc", answer, profile);

    /* The same with maker and model of a device, four letters each as one number. The profile has another id. */
    answer = merqyduk_write_rgb_device(MERQYDUK_WHITE_D65, 0, 0,                       /* white */
                                       MERQYDUK_PRIMARIES_SRGB, 0, 0, 0, 0, 0, 0,      /* primaries */
                                       MERQYDUK_CURVE_SRGB, 0,                         /* curve */
                                       MERQYDUK_INTENT_PERCEPTUAL,
                                       0x41434D45, 0x504C5431,                         /* ACME, PLT1 */
                                       profile, sizeof profile);
    failed |= save("device.icc", answer, profile);

    /* An own white, own primaries and a display gamma of 2.2, and how many of the profile's numbers were rounded. */
    uint32_t rounded = 0;
    answer = merqyduk_write_rgb_counted(MERQYDUK_WHITE_OWN, 0.3457f, 0.3585f,          /* x, y */
                                        MERQYDUK_PRIMARIES_OWN, 0.64f, 0.33f,          /* red x, y */
                                        0.21f, 0.71f,                                  /* green x, y */
                                        0.15f, 0.06f,                                  /* blue x, y */
                                        MERQYDUK_CURVE_GAMMA, 1 / 2.2f,                /* the exponent that encodes */
                                        MERQYDUK_INTENT_RELATIVE, profile, sizeof profile, &rounded);
    failed |= save("own.icc", answer, profile);
    printf("own.icc: %u of its numbers were rounded\n", (unsigned)rounded);

    /* PQ is refused, and no file is written. */
    answer = merqyduk_write_gray(MERQYDUK_WHITE_D65, 0, 0, MERQYDUK_CURVE_PQ, 0, MERQYDUK_INTENT_RELATIVE, profile,
                                 sizeof profile);
    if (save("pq.icc", answer, profile) == 0) failed = 1;

    return failed;
}
