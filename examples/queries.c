/* A colour keyed: the samples of a set that are near one, in a ball and in a box, with what each query
 * reports; then a refusal of each number, which leaves the listing as it was. */
#include <inttypes.h>
#include <stdio.h>

#include "hubeltxa.h"

#define LENGTH(table) (sizeof(table) / sizeof(table)[0])
#define SAMPLES 8

static uint32_t samples[HBX_SAMPLE_WORDS(SAMPLES)], octants[HBX_OCTANT_WORDS(16)];

/* As many words as samples: never too short. */
static uint32_t listing[SAMPLES];

static void add(uint32_t tag, uint32_t red, uint32_t green, uint32_t blue)
{
    uint32_t number = hbx_add(samples, LENGTH(samples), octants, LENGTH(octants), tag, red, green, blue);

    if (number != 0)
        printf("add %" PRIu32 ": %" PRIu32 "\n", tag, number);
}

/* What a query answered, and the whole listing. */
static void show(uint32_t number, uint32_t listed, uint32_t entered, uint32_t measured)
{
    size_t i;

    printf("%" PRIu32 "; listed %" PRIu32 ", entered %" PRIu32 ", measured %" PRIu32 ";", number, listed, entered,
           measured);
    for (i = 0; i < LENGTH(listing); i++)
        printf(" %" PRIu32, listing[i]);
    printf("\n");
}

static void ball(float red, float green, float blue, float radius, size_t octants_len, size_t listing_len)
{
    uint32_t number, listed, entered, measured;

    number = hbx_ball(samples, LENGTH(samples), octants, octants_len, red, green, blue, radius, listing, listing_len,
                      &listed, &entered, &measured);
    printf("ball of %g around %g %g %g: ", radius, red, green, blue);
    show(number, listed, entered, measured);
}

/* A box of greys. */
static void box(float low, float high, size_t listing_len)
{
    uint32_t number, listed, entered, measured;

    number = hbx_box(samples, LENGTH(samples), octants, LENGTH(octants), low, low, low, high, high, high, listing,
                     listing_len, &listed, &entered, &measured);
    printf("box from %g to %g: ", low, high);
    show(number, listed, entered, measured);
}

int main(void)
{
    const size_t all = LENGTH(listing);

    printf("clear: %" PRIu32 "\n", hbx_clear(samples, LENGTH(samples), octants, LENGTH(octants), 2));

    /* A screen of green, 11 to 14, and what stands before it. */
    add(11, 9000, 45000, 12000);
    add(21, 52000, 38000, 31000);
    add(12, 9400, 45300, 12100);
    add(13, 8800, 44100, 12800);
    add(22, 3000, 3000, 3000);
    add(23, 61000, 60000, 59000);
    add(14, 10500, 47000, 11500);

    /* The key: the panel's green, and how far from it a colour may lie. */
    ball(0.140625f, 0.6875f, 0.1875f, 0.015625f, LENGTH(octants), all);
    ball(0.140625f, 0.6875f, 0.1875f, 0.0625f, LENGTH(octants), all);
    ball(0.140625f, 0.6875f, 0.1875f, 0.0f, LENGTH(octants), all); /* nothing is closer than 0 */
    ball(0.5f, 0.5f, 0.5f, 1.5f, LENGTH(octants), all);             /* everything, and nothing is measured */
    box(0.0f, 0.25f, all);
    box(0.5f, 0.96875f, all);

    ball(0.140625f, 0.6875f, 0.1875f, 0.0625f, 0, all);
    ball(0.140625f, 0.6875f, 0.1875f, HBX_RADIUS_LIMIT, LENGTH(octants), all);
    ball(HBX_CHANNEL_LIMIT, 0.6875f, 0.1875f, 0.0625f, LENGTH(octants), all);
    box(0.5f, 0.25f, all);
    ball(0.140625f, 0.6875f, 0.1875f, 0.0625f, LENGTH(octants), 3); /* one word too few */
    ball(0.140625f, 0.6875f, 0.1875f, 0.0625f, LENGTH(octants), 4); /* just enough */
    box(0.25f, 0.25f, 0);                                           /* nothing to list */
    return 0;
}
