/* Tables read by the header's names: the samples in the order of the octree, and the octants; then the
 * greatest numbers that calls take.
 */
#include <inttypes.h>
#include <stdio.h>
#include "hubeltxa.h"

#define LENGTH(table) (sizeof(table) / sizeof(table)[0])
#define LINES (HBX_MOST_SAMPLES + 1)

/* One row more than can be used. */
static uint32_t samples[HBX_SAMPLE_WORDS(LINES)], octants[HBX_OCTANT_WORDS(4 * HBX_OCTANTS_A_SAMPLE)];
#define TABLES samples, LENGTH(samples), octants, LENGTH(octants)

static uint8_t sheet[HBX_HEADER_LENGTH + LINES * HBX_LINE_LENGTH];

/* From the root's first row on, each row says which one follows. */
static void show_order(void)
{
    uint32_t k, row = octants[HBX_OCTANT_WORDS(0) + HBX_AT_FIRST];

    for (k = 0; k < samples[HBX_AT_COUNT]; k++) {
        const uint32_t *sample = samples + HBX_SAMPLE_WORDS(row);

        printf("sample row %" PRIu32 ": tag %" PRIu32 " at %" PRIu32 " %" PRIu32 " %" PRIu32 "\n", row,
               sample[HBX_AT_TAG], sample[HBX_AT_RED], sample[HBX_AT_GREEN], sample[HBX_AT_BLUE]);
        row = sample[HBX_AT_NEXT];
    }
}

/* An octant, and below it its children. */
static void show_octant(uint32_t row, int depth)
{
    const uint32_t *octant = octants + HBX_OCTANT_WORDS(row);
    int k;

    printf("%*soctant row %" PRIu32 ": from sample row %" PRIu32 " to %" PRIu32 ", samples: %" PRIu32 "\n", 2 * depth,
           "", row, octant[HBX_AT_FIRST], octant[HBX_AT_LAST], octant[HBX_AT_SAMPLES]);
    for (k = 0; k < 8; k++)
        if (octant[HBX_AT_CHILDREN + k] != 0)
            show_octant(octant[HBX_AT_CHILDREN + k], depth + 1);
}

static void show_tables(void)
{
    hbx_clear(TABLES, 1);
    hbx_add(TABLES, 7, 60000, 60000, 60000);
    hbx_add(TABLES, 8, 1000, 2000, 3000);
    hbx_add(TABLES, 9, 60000, 2000, 3000);
    hbx_add(TABLES, 10, 40000, 2000, 3000);
    printf("%" PRIu32 " samples, bucket size %" PRIu32 ", %" PRIu32 " octants\n", samples[HBX_AT_COUNT],
           samples[HBX_AT_BUCKET], octants[HBX_AT_COUNT]);
    show_order();
    show_octant(0, 0);
}

static void show_limits(void)
{
    const float channel = HBX_MOST_CODE / HBX_SCALE, radius = HBX_MOST_RADIUS / HBX_SCALE;
    uint32_t code[3], found, tag;
    uint64_t distance;

    printf("channel %.9g: %" PRIu32, channel, hbx_codes(channel, 0, 0, &code[0], &code[1], &code[2]));
    printf(", code %" PRIu32 "\n", code[0]);
    printf("channel %.9g: %" PRIu32 "\n", HBX_CHANNEL_LIMIT,
           hbx_codes(HBX_CHANNEL_LIMIT, 0, 0, &code[0], &code[1], &code[2]));
    printf("radius %.9g: %" PRIu32 "\n", radius,
           hbx_near(TABLES, 0, 0, 0, radius, &found, &tag, &distance));
    printf("radius %.9g: %" PRIu32 "\n", HBX_RADIUS_LIMIT,
           hbx_near(TABLES, 0, 0, 0, HBX_RADIUS_LIMIT, &found, &tag, &distance));
    printf("bucket size %d: %" PRIu32 "\n", HBX_MOST_BUCKET + 1, hbx_clear(TABLES, HBX_MOST_BUCKET + 1));
    printf("bucket size %d: %" PRIu32 "\n", HBX_MOST_BUCKET, hbx_clear(TABLES, HBX_MOST_BUCKET));
}

/* A sheet of one line more than a set can hold. */
static void show_sheet(void)
{
    uint8_t *line = sheet + HBX_HEADER_LENGTH;
    uint32_t tag, number, taken;

    sprintf((char *)sheet, HBX_TITLE "%*d\n", HBX_COUNT_COLUMNS, LINES);
    for (tag = 0; tag < LINES; tag++, line += HBX_LINE_LENGTH)
        hbx_line(tag, 16 * tag % HBX_MOST_CODE, 0, 0, (const uint8_t *)"A001", 4, line, HBX_LINE_LENGTH);
    number = hbx_load(TABLES, sheet, sizeof sheet, &taken);
    printf("a load of %d lines: %" PRIu32 " after %" PRIu32 "\n", LINES, number, taken);
    printf("a line's name starts with %.4s\n", (const char *)line - HBX_LINE_LENGTH + HBX_NAME_START);
}

int main(void)
{
    show_tables();
    show_limits();
    show_sheet();
    return 0;
}
