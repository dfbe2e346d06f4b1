/* hubeltxa: colour samples. The calls of the static library libhubeltxa.a (x86-64 Linux).
 *
 * A code is a whole number from 0 to HBX_MOST_CODE, and a colour is red, green and blue codes. A
 * panel colour is three 32-bit floats, red, green and blue. A sample is a tag, any 32-bit number,
 * and a colour. A sheet is a text of samples, and a sample set stands in two tables of words. Codes,
 * sheets and tables are described before the calls, with a name for each of their numbers.
 *
 * A call that can refuse returns a number: 0 says that it accepted what it was given, any other why
 * it did not. hbx_name cannot refuse and returns nothing; hbx_check returns yes or no. All else
 * comes back through pointers.
 *
 * Each pointer must point to an object of its type, or, if a length follows it, to that many of
 * them. It must never be null, not even if the length is 0. What a call may write (all that is
 * not const) must not overlap anything else that the call is given. The library does not test this.
 *
 * The library has no state, allocates nothing and keeps no pointer. Threads may call it at the same
 * time, provided that none writes what another reads or writes.
 */
#ifndef HUBELTXA_H
#define HUBELTXA_H

#include <stddef.h>
#include <stdint.h>

#ifdef __cplusplus
extern "C" {
#endif

/* The numbers that calls return. Each call's comment says which it can give, and what each means
 * there; README says what to do about it.
 */
enum {
    HBX_ACCEPTED = 0,
    HBX_TOO_SHORT = 1,      /* a table is too short to be one */
    HBX_UNSOUND = 2,        /* the tables are not sound */
    HBX_BUCKET = 3,         /* a bucket size not from 1 to HBX_MOST_BUCKET */
    HBX_CODE = 4,           /* a code over HBX_MOST_CODE */
    HBX_KNOWN_TAG = 5,      /* the tag is there already */
    HBX_NO_ROW = 6,         /* no sample row is unused */
    HBX_NO_OCTANTS = 7,     /* too few octant rows */
    HBX_UNKNOWN_TAG = 8,    /* the tag is not there */
    HBX_OUT_OF_RANGE = 9,   /* a float out of range, or a box that is reversed */
    HBX_NAME = 10,          /* a name that is not good */
    HBX_HEADER = 11,        /* a header that is not good */
    HBX_LINE = 12,          /* a line that is not good */
    HBX_NO_ROOM = 13        /* too few bytes or words lent to write on */
};

/* Codes and panel floats.
 *
 * A code is at most 65,535 (HBX_MOST_CODE). A channel v of a panel colour is good when 0 <= v < 1
 * (HBX_CHANNEL_LIMIT), a radius v when 0 <= v < 2 (HBX_RADIUS_LIMIT); minus zero counts as zero, and
 * an infinity or a NaN is not good. The code of either is the greatest whole k with k <= 65,536 * v
 * (HBX_SCALE), so that of a radius is at most 131,071 (HBX_MOST_RADIUS). A code is shown as the
 * float code / HBX_SCALE, which is exact; the code of that is the code again.
 */
#define HBX_MOST_CODE 65535
#define HBX_CHANNEL_LIMIT 1.0f
#define HBX_RADIUS_LIMIT 2.0f
#define HBX_SCALE 65536.0f
#define HBX_MOST_RADIUS 131071

/* Sheets.
 *
 * A sheet is a header of 15 bytes (HBX_HEADER_LENGTH), then lines of 62 bytes (HBX_LINE_LENGTH):
 *
 *     header   `SWATCHES` (HBX_TITLE); the number of lines in 6 columns (HBX_COUNT_COLUMNS);
 *              a newline
 *     line     tag in 10 columns (HBX_TAG_COLUMNS); red, green and blue in 6 columns
 *              (HBX_CODE_COLUMNS) each; a blank; the reel name at the left of 32 columns
 *              (HBX_NAME_COLUMNS), blanks after it; a newline
 *
 * A number is decimal, at the right of its columns, with blanks before it and no leading zero but
 * in 0 itself. A reel name is good when it has 1 to HBX_NAME_COLUMNS bytes, each from 33 to 126. A
 * blank is byte 32, a newline byte 10. Line k, counted from 0, starts at byte
 * HBX_HEADER_LENGTH + HBX_LINE_LENGTH * k, and its name 29 bytes (HBX_NAME_START) after that. For
 * example (blanks at the end of a line do not show):
 *
 *     SWATCHES     2
 *              7     0     0     0 A001
 *     4294967295 65535 65535 65535 A002
 *
 * A line is good when it is so formed, its name is good, its first number is a tag and the others
 * are codes. A header is good when it is so formed and the sheet is exactly as long as its count
 * says. A sheet may have no lines.
 */
#define HBX_TITLE "SWATCHES"
#define HBX_COUNT_COLUMNS 6
#define HBX_HEADER_LENGTH (8 + HBX_COUNT_COLUMNS + 1) /* the title has 8 bytes */
#define HBX_TAG_COLUMNS 10
#define HBX_CODE_COLUMNS 6
#define HBX_NAME_COLUMNS 32
#define HBX_NAME_START (HBX_TAG_COLUMNS + 3 * HBX_CODE_COLUMNS + 1)
#define HBX_LINE_LENGTH (HBX_NAME_START + HBX_NAME_COLUMNS + 1)

/* Tables.
 *
 * A sample set has 4,096 samples (HBX_MOST_SAMPLES) at most, no two with one tag, and a bucket size
 * from 1 to 256 (HBX_MOST_BUCKET). It stands in two tables of 32-bit words that the caller lends; a
 * length is in words. A table is a header, then rows, counted from 0:
 *
 *     samples   header of 2 (HBX_SAMPLE_HEADER): sample count, bucket size;
 *               rows of 5 (HBX_SAMPLE_ROW), as the samples came in: tag, red, green, blue, next
 *     octants   header of 1 (HBX_OCTANT_HEADER): octant count;
 *               rows of 11 (HBX_OCTANT_ROW): first sample row, last sample row, sample count,
 *               child rows 0 to 7
 *
 * Every other word is 0. A table has as many rows as fit after its header, but a sample table has
 * HBX_MOST_SAMPLES at most. 17 octant rows (HBX_OCTANTS_A_SAMPLE) for each sample are always enough.
 *
 * Octant 0 is all colours. An octant is split exactly when it holds more samples than the bucket
 * size and its side is over 1, into eight children of half its side. Child number = red bit + 2 *
 * green bit + 4 * blue bit, a bit being 1 for the upper half. A child that holds no sample has no
 * row, and its word is 0. An octant stands before its children, and child 0's whole subtree before
 * child 1's. The order of the samples goes through the children of a split octant, 0 to 7, and
 * through the samples of another as they came in: first and last row are by this order, and next is
 * the row of the sample that follows in it, the sample count for the last.
 *
 * Tables are sound when they are exactly those of some set.
 */
#define HBX_SAMPLE_HEADER 2
#define HBX_SAMPLE_ROW 5
#define HBX_OCTANT_HEADER 1
#define HBX_OCTANT_ROW 11
#define HBX_MOST_SAMPLES 4096
#define HBX_OCTANTS_A_SAMPLE 17
#define HBX_MOST_BUCKET 256

/* The words of a table with so many rows; also where the row of that number starts. */
#define HBX_SAMPLE_WORDS(rows) (HBX_SAMPLE_HEADER + HBX_SAMPLE_ROW * (size_t)(rows))
#define HBX_OCTANT_WORDS(rows) (HBX_OCTANT_HEADER + HBX_OCTANT_ROW * (size_t)(rows))

/* Where a word stands, from the start of its table or row: samples[HBX_AT_COUNT] is the sample
 * count, and samples[HBX_SAMPLE_WORDS(k) + HBX_AT_TAG] the tag in sample row k.
 */
enum {                      /* in a header */
    HBX_AT_COUNT = 0,       /* of either table */
    HBX_AT_BUCKET = 1       /* of the sample table */
};
enum {                      /* in a sample row */
    HBX_AT_TAG = 0,
    HBX_AT_RED = 1,
    HBX_AT_GREEN = 2,
    HBX_AT_BLUE = 3,
    HBX_AT_NEXT = 4
};
enum {                      /* in an octant row */
    HBX_AT_FIRST = 0,
    HBX_AT_LAST = 1,
    HBX_AT_SAMPLES = 2,     /* how many it holds */
    HBX_AT_CHILDREN = 3     /* child 0; the others follow */
};

/* The codes of a panel colour.
 *
 * Returns 0 if all three channels are good: the three words are set to the codes.
 * Returns 9 if one is not: the three words are set to 0.
 */
uint32_t hbx_codes(float red, float green, float blue,
                   uint32_t *red_code, uint32_t *green_code, uint32_t *blue_code);

/* A colour as panel floats: each code as it is shown. hbx_codes gives the same codes back.
 *
 * Returns 0 if all three codes are at most HBX_MOST_CODE: the three floats are set to the channels.
 * Returns 4 if one is not: the three floats are set to 0.
 */
uint32_t hbx_floats(uint32_t red, uint32_t green, uint32_t blue,
                    float *red_out, float *green_out, float *blue_out);

/* Writes one line of a sheet over the first HBX_LINE_LENGTH of the line_len bytes at line. Bytes
 * after them stay as they were.
 *
 * Returns 0 if the line is written. Otherwise nothing is written, and the first of these that is
 * so gives the number:
 *    4  a code is over HBX_MOST_CODE
 *   10  the name is not good
 *   13  line_len is under HBX_LINE_LENGTH
 */
uint32_t hbx_line(uint32_t tag, uint32_t red, uint32_t green, uint32_t blue,
                  const uint8_t *name, size_t name_len, uint8_t *line, size_t line_len);

/* Looks up the reel name in the first line with the tag. The name is a part of the caller's own
 * sheet: the *length bytes from sheet + *start on. No null byte follows it.
 *
 * Both are set to 0 if no line has the tag, and if the header or any line is not good, also one
 * after the line with the tag. If the name is found, *length is 1 to HBX_NAME_COLUMNS. Each call
 * reads the whole sheet.
 */
void hbx_name(const uint8_t *sheet, size_t sheet_len, uint32_t tag, size_t *start, size_t *length);

/* Writes the tables of the empty set with this bucket size, whatever words they held.
 *
 * Returns 0 if they are written. Otherwise nothing is written, and the first of these that is so
 * gives the number:
 *    1  samples_len is under HBX_SAMPLE_HEADER, or octants_len under HBX_OCTANT_HEADER
 *    3  the bucket size is not from 1 to HBX_MOST_BUCKET
 */
uint32_t hbx_clear(uint32_t *samples, size_t samples_len, uint32_t *octants, size_t octants_len,
                   uint32_t bucket);

/* Whether the tables are sound: 1 yes, 0 no. Every word is looked at. Tables that are too short are
 * not sound. 80,000 bytes of stack are enough for the call (measured, not proved).
 */
uint32_t hbx_check(const uint32_t *samples, size_t samples_len, const uint32_t *octants,
                   size_t octants_len);

/* The next three calls change a set. Each looks at every word of both tables first, as hbx_check
 * does, and then leaves exactly the tables of the set as it has become. 80,000 bytes of stack are
 * enough for each (measured, not proved).
 */

/* Adds a sample at the end of the set.
 *
 * Returns 0 if it is added. Otherwise both tables are as they were, and the first of these that
 * is so gives the number:
 *    1  samples_len is under HBX_SAMPLE_HEADER, or octants_len under HBX_OCTANT_HEADER
 *    2  the tables are not sound
 *    4  a code is over HBX_MOST_CODE
 *    5  a sample of the set has the tag
 *    6  no sample row is unused
 *    7  there are too few octant rows for the set with the sample
 */
uint32_t hbx_add(uint32_t *samples, size_t samples_len, uint32_t *octants, size_t octants_len,
                 uint32_t tag, uint32_t red, uint32_t green, uint32_t blue);

/* Removes the sample with the tag. The others keep their order, and those after it move one row up:
 * its row can be used again.
 *
 * Returns 0 if it is removed. Otherwise both tables are as they were, and the first of these that
 * is so gives the number:
 *    1  samples_len is under HBX_SAMPLE_HEADER, or octants_len under HBX_OCTANT_HEADER
 *    2  the tables are not sound
 *    8  no sample of the set has the tag
 */
uint32_t hbx_remove(uint32_t *samples, size_t samples_len, uint32_t *octants, size_t octants_len,
                    uint32_t tag);

/* Adds the samples of a sheet's lines, line by line, up to the first line that is refused; the reel
 * names are checked and not kept. *taken is set to how many lines were taken.
 *
 * Returns 0 if every line is taken; a sheet with no lines has none to take. If one of these is so,
 * the first that is so gives the number, both tables are as they were, and *taken is set to 0:
 *    1  samples_len is under HBX_SAMPLE_HEADER, or octants_len under HBX_OCTANT_HEADER
 *    2  the tables are not sound
 *   11  the header is not good
 * Otherwise a line is refused. The lines before it stay in the set, as if they were the whole sheet,
 * and *taken is set to how many they are. The first of these that is so of the line gives the
 * number:
 *   12  the line is not good
 *    5  a sample of the set, or of a line before it, has the tag
 *    6  no sample row is unused
 *    7  there are too few octant rows for the set with the sample
 */
uint32_t hbx_load(uint32_t *samples, size_t samples_len, uint32_t *octants, size_t octants_len,
                  const uint8_t *sheet, size_t sheet_len, uint32_t *taken);

/* A query lists the tags of the samples in a region, in the order of the samples, or finds the
 * nearest one. A ball is a panel colour, its centre, and a radius; a box is a low and a high panel
 * colour. All floats, the radius too, are taken as codes.
 *
 *     ball   samples with d^2 < r^2: d^2 is the sum of the three squared differences between the
 *            codes of sample and centre, r the radius as a code (if r is 0 nothing is in it)
 *     box    samples with low <= code <= high in all three channels
 *
 * The tags are written from the listing's first word on; the words after them stay as they were.
 * *listed is set to how many tags they are, *entered to how many octants were gone into, *measured
 * to how many samples were looked at one by one. (An octant that lies inside the region is listed
 * whole: it is entered, and its samples are not measured.)
 *
 * A listing of samples[HBX_AT_COUNT] words, or of as many as there are sample rows if that is
 * fewer, never gives 13 and is written in one pass. For a shorter one the tags are counted first,
 * and then written if it holds all.
 *
 * A query does not ask whether the tables are sound: that would cost more than the query. On tables
 * that are not, nothing dangerous happens, and the call ends. A pass enters at most as many octants
 * as the octant table's count says, and as there are rows, and goes through at most as many samples
 * as the sample table's count says, and as there are rows. Nothing is written but the listing, up to
 * *listed, and the three reports. But the listing then means nothing: call hbx_check if in doubt.
 *
 * The three calls only read the tables. 8,000 bytes of stack are enough for each (measured, not
 * proved).
 */

/* Lists the samples in a ball.
 *
 * Returns 0 if they are listed. Otherwise the listing is as it was, the three reports are set to 0,
 * and the first of these that is so gives the number:
 *    1  samples_len is under HBX_SAMPLE_HEADER, or octants_len under HBX_OCTANT_HEADER
 *    9  a channel of the centre is not good, or the radius is not
 *   13  listing_len is under the number of tags to list
 */
uint32_t hbx_ball(const uint32_t *samples, size_t samples_len, const uint32_t *octants,
                  size_t octants_len, float red, float green, float blue, float radius,
                  uint32_t *listing, size_t listing_len, uint32_t *listed, uint32_t *entered,
                  uint32_t *measured);

/* Lists the samples in a box.
 *
 * Returns 0 if they are listed. Otherwise the listing is as it was, the three reports are set to 0,
 * and the first of these that is so gives the number:
 *    1  samples_len is under HBX_SAMPLE_HEADER, or octants_len under HBX_OCTANT_HEADER
 *    9  a channel of either colour is not good, or low is above high in one, as codes
 *   13  listing_len is under the number of tags to list
 */
uint32_t hbx_box(const uint32_t *samples, size_t samples_len, const uint32_t *octants,
                 size_t octants_len, float low_red, float low_green, float low_blue,
                 float high_red, float high_green, float high_blue, uint32_t *listing,
                 size_t listing_len, uint32_t *listed, uint32_t *entered, uint32_t *measured);

/* Finds the sample that is nearest to a centre, of those in the ball: the least d^2 < r^2, and the
 * first in the order of the samples if several have it. There is no listing, and nothing is
 * written but the three words that the last pointers point to.
 *
 * If a sample is found, *found is set to 1, *tag to its tag and *distance to its d^2. If none is in
 * the ball, all three are set to 0. (Tag 0 at d^2 0 can be a find.)
 *
 * Nor does this query ask whether the tables are sound. On tables that are not, it ends by the same
 * bounds on octants and samples, and what it finds means nothing.
 *
 * Returns 0 if it has looked. Otherwise the three words are set to 0, and the first of these that is
 * so gives the number:
 *    1  samples_len is under HBX_SAMPLE_HEADER, or octants_len under HBX_OCTANT_HEADER
 *    9  a channel of the centre is not good, or the radius is not
 */
uint32_t hbx_near(const uint32_t *samples, size_t samples_len, const uint32_t *octants,
                  size_t octants_len, float red, float green, float blue, float radius,
                  uint32_t *found, uint32_t *tag, uint64_t *distance);

#ifdef __cplusplus
}
#endif

#endif
