/* Tables cleared and checked: the words of an empty set, of a set with one sample and of one that is
 * split, tables that are not sound, then one refusal of each number. */
#include <inttypes.h>
#include <stdio.h>
#include <string.h>

#include "hubeltxa.h"

#define LENGTH(table) (sizeof(table) / sizeof(table)[0])

/* Three sample rows and three octant rows. */
static uint32_t samples[HBX_SAMPLE_WORDS(3)], octants[HBX_OCTANT_WORDS(3)];

/* Two sets with every word written out, a line for each header and row, to show what tables are. */

/* Bucket size 2; tag 7 at (1, 2, 3), in the root octant. */
static const uint32_t sample[HBX_SAMPLE_WORDS(1)] = {
    1, 2,
    7, 1, 2, 3, 1
};
static const uint32_t root[HBX_OCTANT_WORDS(1)] = {
    1,
    0, 0, 1, 0, 0, 0, 0, 0, 0, 0, 0
};

/* Bucket size 2; 7 at (0, 0, 0), 8 at 65535 in all, 9 at (0, 0, 0). The order is 7, 9, 8. */
static const uint32_t three[HBX_SAMPLE_WORDS(3)] = {
    3, 2,
    7, 0, 0, 0, 2,
    8, 65535, 65535, 65535, 3,
    9, 0, 0, 0, 1
};
static const uint32_t split[HBX_OCTANT_WORDS(3)] = {
    3,
    0, 1, 3, 1, 0, 0, 0, 0, 0, 0, 2,
    0, 2, 2, 0, 0, 0, 0, 0, 0, 0, 0,
    1, 1, 1, 0, 0, 0, 0, 0, 0, 0, 0
};

static void clear(size_t samples_len, size_t octants_len, uint32_t bucket)
{
    uint32_t number = hbx_clear(samples, samples_len, octants, octants_len, bucket);

    printf("clear %" PRIu32 " on %zu and %zu words: %" PRIu32 "\n", bucket, samples_len, octants_len, number);
}

static void check(const char *what)
{
    uint32_t yes = hbx_check(samples, LENGTH(samples), octants, LENGTH(octants));

    printf("%s: %s\n", what, yes ? "sound" : "not sound");
}

static void show(const char *name, const uint32_t *table, size_t length)
{
    size_t i;

    printf("%s", name);
    for (i = 0; i < length; i++)
        printf(" %" PRIu32, table[i]);
    printf("\n");
}

int main(void)
{
    uint32_t *const next_of_7 = samples + HBX_SAMPLE_WORDS(0) + HBX_AT_NEXT;
    uint32_t *const tag_of_8 = samples + HBX_SAMPLE_WORDS(1) + HBX_AT_TAG;

    memset(samples, 0xFF, sizeof samples);
    memset(octants, 0xFF, sizeof octants);
    check("whatever words");
    clear(LENGTH(samples), LENGTH(octants), 2);
    show("samples", samples, LENGTH(samples));
    show("octants", octants, LENGTH(octants));
    check("the empty set");

    memcpy(samples, sample, sizeof sample);
    check("a sample and no octant");
    memcpy(octants, root, sizeof root);
    check("one sample");
    octants[LENGTH(octants) - 1] = 1;
    check("a last word that is not 0");

    memcpy(samples, three, sizeof three);
    memcpy(octants, split, sizeof split);
    check("three samples");
    *next_of_7 = 1;
    check("another next row");
    *next_of_7 = 2;
    *tag_of_8 = 9;
    check("a tag twice");

    clear(1, LENGTH(octants), 0); /* 1 is asked before 3 */
    clear(LENGTH(samples), 0, 2);
    clear(LENGTH(samples), LENGTH(octants), 0);
    clear(LENGTH(samples), LENGTH(octants), HBX_MOST_BUCKET + 1);
    *tag_of_8 = 8;
    check("three samples, which the refused clears left"); /* a refusal writes nothing */
    return 0;
}
