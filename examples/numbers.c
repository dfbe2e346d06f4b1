/* Each number, given by a call, and what may be done about it. */
#include <stdio.h>
#include "hubeltxa.h"

/* One row more of each table is there than is lent at first. */
static uint32_t samples[HBX_SAMPLE_WORDS(3)], octants[HBX_OCTANT_WORDS(19)];
static size_t sample_rows = 2, octant_rows = 17;
#define TABLES samples, HBX_SAMPLE_WORDS(sample_rows), octants, HBX_OCTANT_WORDS(octant_rows)

static uint8_t sheet[HBX_HEADER_LENGTH + HBX_LINE_LENGTH + 1];

static void show(const char *what, uint32_t number, uint32_t expected)
{
    printf("%2u  %s%s\n", number, what, number == expected ? "" : "  (another was expected)");
}

/* Clears, and adds; the tables get longer if they have to. */
static void change(void)
{
    show("a sample table of one word", hbx_clear(samples, 1, octants, 1, 1), HBX_TOO_SHORT);
    samples[HBX_AT_COUNT] = 9;
    show("tables that were never cleared", hbx_add(TABLES, 7, 0, 0, 0), HBX_UNSOUND);
    show("a bucket size of 0", hbx_clear(TABLES, 0), HBX_BUCKET);
    show("cleared", hbx_clear(TABLES, 1), HBX_ACCEPTED);
    show("a code of 65,536", hbx_add(TABLES, 7, 0, 0, HBX_MOST_CODE + 1), HBX_CODE);
    show("added", hbx_add(TABLES, 7, 0, 0, 0), HBX_ACCEPTED);
    show("its tag again", hbx_add(TABLES, 7, 1, 2, 3), HBX_KNOWN_TAG);
    show("added in the last row, as deep as can be", hbx_add(TABLES, 8, 0, 0, 1), HBX_NO_OCTANTS);
    octant_rows = 18;
    show("the same, with one octant row more", hbx_add(TABLES, 8, 0, 0, 1), HBX_ACCEPTED);
    show("a third sample in two rows", hbx_add(TABLES, 9, 65535, 65535, 65535), HBX_NO_ROW);
    sample_rows = 3;
    octant_rows = 19;
    show("the same, with one row more of each", hbx_add(TABLES, 9, 65535, 65535, 65535), HBX_ACCEPTED);
    show("a tag that is not there, removed", hbx_remove(TABLES, 10), HBX_UNKNOWN_TAG);
}

/* Asks, with floats that are out of range, and with a listing that is too short. */
static void ask(void)
{
    uint32_t tags[3], listed, entered, measured;

    show("a ball of radius 2",
         hbx_ball(TABLES, 0, 0, 0, HBX_RADIUS_LIMIT, tags, 3, &listed, &entered, &measured), HBX_OUT_OF_RANGE);
    show("a listing of one word for three tags",
         hbx_ball(TABLES, 0, 0, 0, 1.999f, tags, 1, &listed, &entered, &measured), HBX_NO_ROOM);
    show("a listing of three", hbx_ball(TABLES, 0, 0, 0, 1.999f, tags, 3, &listed, &entered, &measured), HBX_ACCEPTED);
}

/* Writes a sheet of one line, and loads it: after its header and its line were made wrong, and then mended. */
static void load(void)
{
    uint8_t *line = sheet + HBX_HEADER_LENGTH;
    const uint8_t name[] = "A 01";
    char what[40];
    uint32_t taken;

    sprintf((char *)sheet, HBX_TITLE "%*d\n", HBX_COUNT_COLUMNS, 1);
    show("a name with a blank in it", hbx_line(7, 0, 0, 0, name, 4, line, HBX_LINE_LENGTH), HBX_NAME);
    sprintf(what, "a line on %d bytes", HBX_LINE_LENGTH - 1);
    show(what, hbx_line(7, 0, 0, 0, name, 1, line, HBX_LINE_LENGTH - 1), HBX_NO_ROOM);
    show("a line written", hbx_line(10, 5, 6, 7, name, 1, line, HBX_LINE_LENGTH), HBX_ACCEPTED);
    show("a sheet one byte too long", hbx_load(TABLES, sheet, sizeof sheet, &taken), HBX_HEADER);
    show("removed, for a row", hbx_remove(TABLES, 9), HBX_ACCEPTED);
    line[HBX_LINE_LENGTH - 1] = ' ';
    show("a line without its newline", hbx_load(TABLES, sheet, sizeof sheet - 1, &taken), HBX_LINE);
    line[HBX_LINE_LENGTH - 1] = '\n';
    show("loaded", hbx_load(TABLES, sheet, sizeof sheet - 1, &taken), HBX_ACCEPTED);
}

int main(void)
{
    change();
    ask();
    load();
    return 0;
}
