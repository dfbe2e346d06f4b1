/* A sheet of three lines, names looked up in it, then one refusal of each number. */
#include <inttypes.h>
#include <stdio.h>
#include <string.h>

#include "hubeltxa.h"

#define LINES 3

static uint8_t sheet[HBX_HEADER_LENGTH + LINES * HBX_LINE_LENGTH];

static uint8_t *line(int k)
{
    return sheet + HBX_HEADER_LENGTH + k * HBX_LINE_LENGTH;
}

static void write_line(uint32_t tag, uint32_t green, const char *name, uint8_t *bytes, size_t lent)
{
    uint32_t number = hbx_line(tag, 0, green, 65535, (const uint8_t *)name, strlen(name), bytes, lent);

    printf("line %" PRIu32 ", \"%s\": %" PRIu32 "\n", tag, name, number);
}

static void look_up(uint32_t tag, size_t sheet_len)
{
    size_t start, length;

    hbx_name(sheet, sheet_len, tag, &start, &length);
    printf("name %" PRIu32 ": \"%.*s\", %zu bytes at %zu\n", tag, (int)length, (const char *)sheet + start,
           length, start);
}

int main(void)
{
    int k;

    /* The null byte that sprintf adds is where line 0 starts, which is written next. */
    sprintf((char *)sheet, HBX_TITLE "%*d\n", HBX_COUNT_COLUMNS, LINES);
    write_line(7, 0, "A001", line(0), HBX_LINE_LENGTH);
    write_line(UINT32_MAX, 65535, "B-roll/day.2", line(1), HBX_LINE_LENGTH);
    write_line(9, 32768, "A002", line(2), HBX_LINE_LENGTH);
    printf("|%.*s|\n", HBX_HEADER_LENGTH - 1, (const char *)sheet);
    for (k = 0; k < LINES; k++)
        printf("|%.*s|\n", HBX_LINE_LENGTH - 1, (const char *)line(k));

    look_up(7, sizeof sheet);
    look_up(UINT32_MAX, sizeof sheet);
    look_up(9, sizeof sheet);
    look_up(8, sizeof sheet);
    look_up(7, sizeof sheet - 1); /* not as long as the header says */

    write_line(8, HBX_MOST_CODE + 1, "A003", line(0), HBX_LINE_LENGTH);
    write_line(8, 32768, "A 003", line(0), HBX_LINE_LENGTH);
    write_line(8, 32768, "A003", line(0), HBX_LINE_LENGTH - 1);
    look_up(7, sizeof sheet); /* the refused lines wrote nothing */
    return 0;
}
