/* A set changed: a sample added, more loaded from a sheet, one removed and added again, with the tables
 * as they then are; then refusals of each number, which leave what they found, but for the lines of a
 * sheet before the one that is refused. */
#include <inttypes.h>
#include <stdio.h>
#include <string.h>

#include "hubeltxa.h"

#define LENGTH(table) (sizeof(table) / sizeof(table)[0])
#define LINES 2

/* Four sample rows and three octant rows. */
static uint32_t samples[HBX_SAMPLE_WORDS(4)], octants[HBX_OCTANT_WORDS(3)];

static uint8_t sheet[HBX_HEADER_LENGTH + LINES * HBX_LINE_LENGTH];

static void show(const char *name, const uint32_t *table, size_t length)
{
    size_t i;

    printf("  %s", name);
    for (i = 0; i < length; i++)
        printf(" %" PRIu32, table[i]);
    printf("\n");
}

static void show_tables(void)
{
    show("samples", samples, LENGTH(samples));
    show("octants", octants, LENGTH(octants));
}

static void add(uint32_t tag, uint32_t grey)
{
    uint32_t number = hbx_add(samples, LENGTH(samples), octants, LENGTH(octants), tag, grey, grey, grey);

    printf("add %" PRIu32 ", %" PRIu32 " in all: %" PRIu32 "\n", tag, grey, number);
}

static void remove_tag(uint32_t tag, size_t octants_len)
{
    uint32_t number = hbx_remove(samples, LENGTH(samples), octants, octants_len, tag);

    printf("remove %" PRIu32 " on %zu octant words: %" PRIu32 "\n", tag, octants_len, number);
}

static void write_line(int k, uint32_t tag, uint32_t grey)
{
    static const uint8_t name[] = {'A', '0', '0', '1'};

    if (hbx_line(tag, grey, grey, grey, name, sizeof name, sheet + HBX_HEADER_LENGTH + k * HBX_LINE_LENGTH,
                 HBX_LINE_LENGTH) != 0)
        printf("line %d is not written\n", k);
}

static void load(const char *what, size_t sheet_len)
{
    uint32_t taken, number;

    number = hbx_load(samples, LENGTH(samples), octants, LENGTH(octants), sheet, sheet_len, &taken);
    printf("load %s: %" PRIu32 ", %" PRIu32 " taken\n", what, number, taken);
}

int main(void)
{
    add(7, 0); /* no bucket size yet */
    printf("clear: %" PRIu32 "\n", hbx_clear(samples, LENGTH(samples), octants, LENGTH(octants), 2));
    add(7, 0);
    show_tables();

    /* The null byte that sprintf adds is where line 0 starts, which is written next. */
    sprintf((char *)sheet, HBX_TITLE "%*d\n", HBX_COUNT_COLUMNS, LINES);
    write_line(0, 8, 65535);
    write_line(1, 9, 0);
    load("8 and 9", sizeof sheet);
    show_tables();

    remove_tag(7, LENGTH(octants));
    show_tables();
    add(7, 0); /* it is the last now */
    show_tables();

    add(10, HBX_MOST_CODE + 1);
    add(9, 65535);
    add(10, 0); /* a third sample at 0 in all would split down to the last depth */
    remove_tag(10, LENGTH(octants));
    remove_tag(9, 0);
    load("a sheet that is cut", sizeof sheet - 1);
    load("8 and 9 again", sizeof sheet);

    write_line(0, 10, 65535);
    sheet[sizeof sheet - 1] = ' '; /* where the newline of line 1 was */
    load("10 and a line that is not good", sizeof sheet);
    remove_tag(10, LENGTH(octants));
    write_line(1, 11, 65535);
    load("10 and 11, where one row is unused", sizeof sheet);
    add(11, 65535);
    show_tables();

    samples[HBX_AT_COUNT] = 3;
    remove_tag(7, LENGTH(octants)); /* the tables are of no set */
    return 0;
}
