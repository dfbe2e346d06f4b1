/* Keys a colour: samples of a green screen come from a sheet, and each pixel is asked whether it is near any of them. */
#include <stdio.h>
#include "hubeltxa.h"

#define ROWS 512        /* samples that the set can hold */
#define OCTANTS 512     /* as many as samples: usually enough for bucket size 16; 17 for each sample always are */

static uint32_t samples[HBX_SAMPLE_WORDS(ROWS)], octants[HBX_OCTANT_WORDS(OCTANTS)], tags[ROWS];
#define TABLES samples, HBX_SAMPLE_WORDS(ROWS), octants, HBX_OCTANT_WORDS(OCTANTS)

static const uint8_t sheet[] =
    "SWATCHES     3\n"
    "        11  9000 45000 12000 A001                            \n"
    "        12  9400 45300 12100 A001                            \n"
    "        13  8800 44100 12800 B002                            \n";
static const size_t sheet_length = sizeof sheet - 1;    /* without the 0 that ends a C string */

/* Is the pixel of these codes within the radius of any sample? Says so, and which sample is nearest, of which reel. */
static void key(uint32_t red, uint32_t green, uint32_t blue, float radius)
{
    uint32_t number, listed, entered, measured, found, tag;
    uint64_t distance;
    size_t start, length;
    float r, g, b;

    number = hbx_floats(red, green, blue, &r, &g, &b);
    if (number == 0)
        number = hbx_ball(TABLES, r, g, b, radius, tags, ROWS, &listed, &entered, &measured);
    if (number == 0)
        number = hbx_near(TABLES, r, g, b, radius, &found, &tag, &distance);
    if (number != 0) {
        printf("%u %u %u: refused by %u\n", red, green, blue, number);
        return;
    }
    if (!found) {
        printf("%u %u %u: not keyed\n", red, green, blue);
        return;
    }
    hbx_name(sheet, sheet_length, tag, &start, &length);
    printf("%u %u %u: keyed by %u samples, nearest %u of reel %.*s\n", red, green, blue, listed, tag,
           (int)length, (const char *)sheet + start);
}

int main(void)
{
    uint32_t number, taken;

    if (hbx_clear(TABLES, 16) != HBX_ACCEPTED)  /* always first: the tables become an empty set, whatever they held */
        return 1;
    number = hbx_load(TABLES, sheet, sheet_length, &taken);
    if (number != HBX_ACCEPTED) {
        printf("the sheet is refused by %u after %u lines\n", number, taken);
        return 1;
    }
    key(9100, 44900, 12200, 0.02f);
    key(9500, 46000, 11500, 0.02f);
    key(52000, 38000, 31000, 0.02f);    /* a face */
    key(9100, 44900, 70000, 0.02f);     /* no code */
    if (hbx_add(TABLES, 12, 0, 0, 0) == HBX_KNOWN_TAG)
        printf("12 is there already\n");
    return 0;
}
