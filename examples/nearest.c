/* A colour named: the sample of a set that is nearest to a panel colour, if one is near enough; then a
 * tie, which the first in the order of the samples wins, and a refusal of each number. */
#include <inttypes.h>
#include <stdio.h>

#include "hubeltxa.h"

#define LENGTH(table) (sizeof(table) / sizeof(table)[0])

static uint32_t samples[HBX_SAMPLE_WORDS(8)], octants[HBX_OCTANT_WORDS(24)];

static void add(uint32_t tag, uint32_t red, uint32_t green, uint32_t blue)
{
    uint32_t number = hbx_add(samples, LENGTH(samples), octants, LENGTH(octants), tag, red, green, blue);

    if (number != 0)
        printf("add %" PRIu32 ": %" PRIu32 "\n", tag, number);
}

static void nearest(float red, float green, float blue, float radius, size_t octants_len)
{
    uint32_t number, found, tag;
    uint64_t distance;

    number = hbx_near(samples, LENGTH(samples), octants, octants_len, red, green, blue, radius, &found, &tag,
                      &distance);
    printf("nearest to %g %g %g within %g: %" PRIu32 "; ", red, green, blue, radius, number);
    if (found)
        printf("tag %" PRIu32 ", distance squared %" PRIu64 "\n", tag, distance);
    else
        printf("none\n");
}

int main(void)
{
    printf("clear: %" PRIu32 "\n", hbx_clear(samples, LENGTH(samples), octants, LENGTH(octants), 1));
    nearest(0.5f, 0.5f, 0.5f, 1.5f, LENGTH(octants)); /* there is nothing yet */

    add(0, 0, 0, 0);
    add(1, 60000, 2000, 3000);
    add(2, 4000, 50000, 9000);
    add(3, 2000, 6000, 58000);
    add(4, 32768, 32768, 40960);
    add(5, 32768, 32768, 24576);

    nearest(0.9375f, 0.0625f, 0.0625f, 0.125f, LENGTH(octants));
    nearest(0.125f, 0.75f, 0.125f, 0.03125f, LENGTH(octants)); /* too far */
    nearest(0.125f, 0.75f, 0.125f, 0.125f, LENGTH(octants));
    nearest(0.0f, 0.0f, 0.0f, 0.25f, LENGTH(octants));         /* tag 0 at distance 0 is a find */
    nearest(0.0f, 0.0f, 0.0f, 0.0f, LENGTH(octants));          /* nothing is closer than 0 */

    /* 4 came in first; 5 is as far from the middle, in an octant that stands before 4's. */
    nearest(0.5f, 0.5f, 0.5f, 0.25f, LENGTH(octants));
    nearest(0.5f, 0.5f, 0.5f, 0.125f, LENGTH(octants)); /* exactly the distance is not within */

    nearest(0.5f, 0.5f, 0.5f, 0.25f, 0);
    nearest(0.5f, 0.5f, HBX_CHANNEL_LIMIT, 0.25f, LENGTH(octants));
    nearest(0.5f, 0.5f, 0.5f, HBX_RADIUS_LIMIT, LENGTH(octants));
    return 0;
}
