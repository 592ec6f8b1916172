/* What lcms2 makes of profiles, for run.sh and host/test.sh. A line starts with a word and has fields with tabs between.
 *
 *    lcms tags PROFILE    the number of tags, and which of them lcms2 does not read
 *    lcms device PROFILE  the maker and the model, by the letters that their bytes are
 *    lcms id PROFILE      the id in the header, by hexadecimal digits
 *    lcms intent PROFILE  the intent in the header, by its number, and the description
 *    lcms media PROFILE   the media white, as wtpt has it, and the nine numbers of chad, none where there is no chad
 *    lcms white PROFILE   the white of the device in the PCS, relative and absolute, and in lcms2's own sRGB with eight bits
 *    lcms like PROFILE WX WY [RX RY GX GY BX BY] CURVE
 *                         the largest difference in Lab, on a grid of colors, to a profile that lcms2 makes itself from these; CURVE is srgb,
 *                         bt709 or the exponent that decodes; no primaries for gray
 *    lcms srgb PROFILE    the same to lcms2's own sRGB, and how many colors of the grid change with eight bits, from the profile and to it
 *
 * Fails where lcms2 refuses the profile, where the white is not (0.9642, 1, 0.8249) or (255, 255, 255) within 0.0005 and 1, and where
 * differences are more than rounding: 0.1 in Lab, and 1 of 255. */
#include <lcms2.h>
#include <math.h>
#include <stdio.h>
#include <stdlib.h>
#include <string.h>

static void say(cmsContext context, cmsUInt32Number code, const char *text) {
    (void)context;
    fprintf(stderr, "lcms2 says %u: %s\n", (unsigned)code, text);
}

static void print_letters(const char *before, cmsUInt32Number four) {
    printf("%s%c%c%c%c", before, four >> 24, four >> 16 & 255, four >> 8 & 255, four & 255);
}

static int tags(cmsHPROFILE profile) {
    printf("tags\t%d\t", (int)cmsGetTagCount(profile));
    int unread = 0;
    for (int i = 0; i < cmsGetTagCount(profile); i++) {
        cmsUInt32Number tag = (cmsUInt32Number)cmsGetTagSignature(profile, (cmsUInt32Number)i);
        if (!cmsReadTag(profile, (cmsTagSignature)tag)) {
            print_letters(unread ? " " : "", tag);
            unread++;
        }
    }
    printf("\n");
    return 0;
}

static int maker_and_model(cmsHPROFILE profile) {
    print_letters("device\t", cmsGetHeaderManufacturer(profile));
    print_letters("\t", cmsGetHeaderModel(profile));
    printf("\n");
    return 0;
}

static int header_id(cmsHPROFILE profile) {
    cmsUInt8Number id[16];
    cmsGetHeaderProfileID(profile, id);
    printf("id\t");
    for (int i = 0; i < 16; i++) printf("%02x", id[i]);
    printf("\n");
    return 0;
}

static int intent_and_text(cmsHPROFILE profile) {
    char text[400]; /* ours have at most 372 letters */
    if (!cmsGetProfileInfoASCII(profile, cmsInfoDescription, "en", "US", text, sizeof text)) return 1;
    printf("intent\t%u\t%s\n", (unsigned)cmsGetHeaderRenderingIntent(profile), text);
    return 0;
}

static int media(cmsHPROFILE profile) {
    const cmsCIEXYZ *white = cmsReadTag(profile, cmsSigMediaWhitePointTag);
    if (!white) return 1;
    printf("media\t%.4f %.4f %.4f\t", white->X, white->Y, white->Z);
    const cmsFloat64Number *chad = cmsReadTag(profile, cmsSigChromaticAdaptationTag);
    if (!chad) printf("none");
    for (int i = 0; chad && i < 9; i++) printf("%s%.5f", i ? " " : "", chad[i]);
    printf("\n");
    return 0;
}

/* The device's numbers of white: 1 each, but for XYB those of the XYB color (0, Y, Y) that white has, scaled to 0 to 1. */
static void device_white(cmsHPROFILE profile, double device[3]) {
    device[0] = device[1] = device[2] = 1;
    if (cmsGetDeviceClass(profile) == cmsSigInputClass) {
        const double bias = 0.0037930732552754493;
        device[0] = 0.015386134 * 22.995788804;
        device[1] = (cbrt(1 + bias) - cbrt(bias)) * 1.183000077;
        device[2] = 0.27770459 * 1.502141333;
    }
}

static int white(cmsHPROFILE profile) {
    const cmsUInt32Number from = cmsGetColorSpace(profile) == cmsSigGrayData ? TYPE_GRAY_DBL : TYPE_RGB_DBL;
    const cmsUInt32Number intents[] = {INTENT_RELATIVE_COLORIMETRIC, INTENT_ABSOLUTE_COLORIMETRIC};
    cmsHPROFILE xyz = cmsCreateXYZProfile(), srgb = cmsCreate_sRGBProfile();
    double device[3];
    int failed = 0;
    device_white(profile, device);
    printf("white");
    for (int i = 0; i < 2; i++) {
        cmsHTRANSFORM to_xyz = cmsCreateTransform(profile, from, xyz, TYPE_XYZ_DBL, intents[i], cmsFLAGS_NOCACHE | cmsFLAGS_NOOPTIMIZE);
        if (!to_xyz) return 1;
        cmsCIEXYZ c;
        cmsDoTransform(to_xyz, device, &c, 1);
        printf("\t%.4f %.4f %.4f", c.X, c.Y, c.Z);
        if (i == 0 && (fabs(c.X - 0.9642) > 0.0005 || fabs(c.Y - 1) > 0.0005 || fabs(c.Z - 0.8249) > 0.0005)) failed = 1;
        cmsDeleteTransform(to_xyz);
    }
    cmsHTRANSFORM to_srgb = cmsCreateTransform(profile, from, srgb, TYPE_RGB_8, INTENT_RELATIVE_COLORIMETRIC, cmsFLAGS_NOCACHE);
    if (!to_srgb) return 1;
    cmsUInt8Number rgb[3];
    cmsDoTransform(to_srgb, device, rgb, 1);
    printf("\t%d %d %d\n", rgb[0], rgb[1], rgb[2]);
    for (int i = 0; i < 3; i++) failed |= rgb[i] < 254;
    cmsDeleteTransform(to_srgb);
    cmsCloseProfile(xyz);
    cmsCloseProfile(srgb);
    return failed;
}

/* Colors of the device with the numbers 0, step, ... 255; a gray one has the first alone. */
struct grid {
    int step, at[3];
};

static int next(struct grid *grid, int gray) {
    for (int i = 0; i < (gray ? 1 : 3); i++) {
        grid->at[i] += grid->step;
        if (grid->at[i] <= 255) return 1;
        grid->at[i] = 0;
    }
    return 0;
}

/* The largest difference in Lab between two profiles of the same device space. */
static double largest_difference(cmsHPROFILE ours, cmsHPROFILE theirs, int step) {
    const int gray = cmsGetColorSpace(ours) == cmsSigGrayData;
    const cmsUInt32Number from = gray ? TYPE_GRAY_DBL : TYPE_RGB_DBL, flags = cmsFLAGS_NOCACHE | cmsFLAGS_NOOPTIMIZE;
    cmsHPROFILE lab = cmsCreateLab4Profile(NULL);
    cmsHTRANSFORM a = cmsCreateTransform(ours, from, lab, TYPE_Lab_DBL, INTENT_RELATIVE_COLORIMETRIC, flags);
    cmsHTRANSFORM b = cmsCreateTransform(theirs, from, lab, TYPE_Lab_DBL, INTENT_RELATIVE_COLORIMETRIC, flags);
    if (!a || !b) return INFINITY;
    double most = 0;
    struct grid grid = {step, {0, 0, 0}};
    do {
        double in[3] = {grid.at[0] / 255.0, grid.at[1] / 255.0, grid.at[2] / 255.0};
        cmsCIELab x, y;
        cmsDoTransform(a, in, &x, 1);
        cmsDoTransform(b, in, &y, 1);
        most = fmax(most, cmsDeltaE(&x, &y));
    } while (next(&grid, gray));
    return most;
}

static cmsToneCurve *curve_of(const char *word) {
    const double srgb[] = {2.4, 1 / 1.055, 0.055 / 1.055, 1 / 12.92, 0.04045};
    const double bt709[] = {1 / 0.45, 1 / 1.099, 0.099 / 1.099, 1 / 4.5, 0.081};
    if (strcmp(word, "srgb") == 0) return cmsBuildParametricToneCurve(NULL, 4, srgb);
    if (strcmp(word, "bt709") == 0) return cmsBuildParametricToneCurve(NULL, 4, bt709);
    return cmsBuildGamma(NULL, atof(word));
}

static int like(cmsHPROFILE profile, char **words) {
    const cmsCIExyY white = {atof(words[0]), atof(words[1]), 1};
    cmsHPROFILE theirs;
    if (cmsGetColorSpace(profile) == cmsSigGrayData) {
        theirs = cmsCreateGrayProfile(&white, curve_of(words[2]));
    } else {
        const cmsCIExyYTRIPLE primaries = {{atof(words[2]), atof(words[3]), 1},
                                           {atof(words[4]), atof(words[5]), 1},
                                           {atof(words[6]), atof(words[7]), 1}};
        cmsToneCurve *curve = curve_of(words[8]);
        cmsToneCurve *three[] = {curve, curve, curve};
        theirs = cmsCreateRGBProfile(&white, &primaries, three);
    }
    if (!theirs) return 1;
    const double most = largest_difference(profile, theirs, 15);
    printf("like\t%.4f\n", most);
    return !(most <= 0.1);
}

static int srgb(cmsHPROFILE profile) {
    cmsHPROFILE theirs = cmsCreate_sRGBProfile();
    cmsHTRANSFORM ways[] = {
        cmsCreateTransform(profile, TYPE_RGB_8, theirs, TYPE_RGB_8, INTENT_RELATIVE_COLORIMETRIC, cmsFLAGS_NOCACHE),
        cmsCreateTransform(theirs, TYPE_RGB_8, profile, TYPE_RGB_8, INTENT_RELATIVE_COLORIMETRIC, cmsFLAGS_NOCACHE)};
    if (!ways[0] || !ways[1]) return 1;
    const double most = largest_difference(profile, theirs, 5);
    int colors = 0, changed[2] = {0, 0}, by[2] = {0, 0};
    struct grid grid = {5, {0, 0, 0}};
    do {
        cmsUInt8Number from[3], to[3];
        for (int i = 0; i < 3; i++) from[i] = (cmsUInt8Number)grid.at[i];
        for (int way = 0; way < 2; way++) {
            int worst = 0;
            cmsDoTransform(ways[way], from, to, 1);
            for (int i = 0; i < 3; i++)
                if (abs(to[i] - from[i]) > worst) worst = abs(to[i] - from[i]);
            changed[way] += worst > 0;
            if (worst > by[way]) by[way] = worst;
        }
        colors++;
    } while (next(&grid, 0));
    printf("srgb\t%d\t%.4f\t%d\t%d\t%d\t%d\n", colors, most, changed[0], by[0], changed[1], by[1]);
    return !(most <= 0.1) || by[0] > 1 || by[1] > 1;
}

int main(int argc, char **argv) {
    if (argc == 2 && strcmp(argv[1], "version") == 0) {
        printf("%d.%d\n", cmsGetEncodedCMMversion() / 1000, cmsGetEncodedCMMversion() % 1000 / 10);
        return 0;
    }
    const char *word = argc > 2 ? argv[1] : "";
    static const struct {
        const char *word;
        int (*look)(cmsHPROFILE);
    } looks[] = {{"tags", tags}, {"device", maker_and_model}, {"id", header_id}, {"intent", intent_and_text},
                 {"media", media}, {"white", white}, {"srgb", srgb}};
    int (*look)(cmsHPROFILE) = NULL;
    for (size_t i = 0; i < sizeof looks / sizeof looks[0]; i++)
        if (strcmp(word, looks[i].word) == 0) look = looks[i].look;
    const int compare = strcmp(word, "like") == 0 && (argc == 6 || argc == 12);
    if (!compare && !(look && argc == 3)) {
        fprintf(stderr, "lcms version, lcms tags|device|id|intent|media|white|srgb PROFILE, or lcms like PROFILE WX WY [RX RY GX GY BX BY] CURVE\n");
        return 2;
    }
    cmsSetLogErrorHandler(say);
    cmsHPROFILE profile = cmsOpenProfileFromFile(argv[2], "r");
    if (!profile) return 1;
    if (compare && (cmsGetColorSpace(profile) == cmsSigGrayData) != (argc == 6)) {
        fprintf(stderr, "primaries are for RGB\n");
        return 2;
    }
    return compare ? like(profile, argv + 3) : look(profile);
}
