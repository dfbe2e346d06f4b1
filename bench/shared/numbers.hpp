// The numbers of codes, panel floats, sheets and tables by name, the header's under its names, and where in a line or a
// table each thing is. Nothing else in bench/ has them built in: if the layout, a sheet's line or the range of floats
// changes, this file does. The hand-written C++ is measured through these functions, so they must cost nothing.
#pragma once

#include <cstddef>
#include <cstdint>
#include <limits>

#include "hubeltxa.h"

using u32 = uint32_t;
using u64 = uint64_t;

using Tag = u32;
const Tag MOST_TAG = std::numeric_limits<Tag>::max();

// An octree is as deep as a code has bits.
const u32 CODE_BITS = 16, CODES = 1u << CODE_BITS, MOST_CODE = HBX_MOST_CODE;
static_assert(MOST_CODE == CODES - 1);

// Panel floats. A radius is taken and shown by the same scale.
const u32 SCALE = HBX_SCALE, MOST_RADIUS = HBX_MOST_RADIUS;
const float CHANNEL_LIMIT = HBX_CHANNEL_LIMIT;
// The least float that is too great for a channel.
const float PAST_CHANNELS = CHANNEL_LIMIT;

inline bool good_channel(float v) { return (v >= 0) & (v < CHANNEL_LIMIT); }
inline u32 code_of(float v) { return (u32)(v * SCALE); }
inline float channel(u32 code) { return (float)code / SCALE; }

// A sheet's header: the title, the number of lines, a newline.
const char TITLE[] = HBX_TITLE;
const int COUNT_COLUMNS = HBX_COUNT_COLUMNS;
const u32 MOST_LINES = 999999;  // what so many columns can say
const size_t TITLE_LENGTH = sizeof TITLE - 1, HEADER_LENGTH = HBX_HEADER_LENGTH;

// A line: the tag, three codes, a blank, the name, a newline.
const int TAG_COLUMNS = HBX_TAG_COLUMNS, CODE_COLUMNS = HBX_CODE_COLUMNS, NAME_COLUMNS = HBX_NAME_COLUMNS;
constexpr size_t code_start(size_t i) { return TAG_COLUMNS + CODE_COLUMNS * i; }
const size_t NAME_START = HBX_NAME_START, LINE_LENGTH = HBX_LINE_LENGTH;

// Where line k starts. A sheet of k lines ends there.
constexpr size_t line_start(size_t k) { return HEADER_LENGTH + LINE_LENGTH * k; }

// The words of tables with so many rows.
constexpr size_t sample_words(size_t rows) { return HBX_SAMPLE_WORDS(rows); }
constexpr size_t octant_words(size_t rows) { return HBX_OCTANT_WORDS(rows); }

// The most samples of a set, and octant rows that always are enough for them.
const u32 MOST_SAMPLES = HBX_MOST_SAMPLES, MOST_OCTANTS = HBX_OCTANTS_A_SAMPLE * MOST_SAMPLES;

// The words of a header and of a row, and how many they are.
enum SampleHeader { SAMPLE_COUNT_AT = HBX_AT_COUNT, BUCKET_AT = HBX_AT_BUCKET, SAMPLE_HEADER = HBX_SAMPLE_HEADER };
enum SampleRow { TAG_AT = HBX_AT_TAG, RED_AT = HBX_AT_RED, NEXT_AT = HBX_AT_NEXT, SAMPLE_ROW = HBX_SAMPLE_ROW };
enum OctantHeader { OCTANT_COUNT_AT = HBX_AT_COUNT, OCTANT_HEADER = HBX_OCTANT_HEADER };
enum OctantRow {
  FIRST_AT = HBX_AT_FIRST,
  LAST_AT = HBX_AT_LAST,
  HELD_AT = HBX_AT_SAMPLES,
  CHILDREN_AT = HBX_AT_CHILDREN,
  OCTANT_ROW = HBX_OCTANT_ROW
};

// The header of a sample table.
inline u32 sample_count(const u32* samples) { return samples[SAMPLE_COUNT_AT]; }
inline u32 bucket_size(const u32* samples) { return samples[BUCKET_AT]; }
inline void set_sample_header(u32* samples, u32 count, u32 bucket) {
  samples[SAMPLE_COUNT_AT] = count;
  samples[BUCKET_AT] = bucket;
}

// A sample row by its number.
inline u32 sample_place(u32 row) { return SAMPLE_HEADER + SAMPLE_ROW * row; }
inline Tag sample_tag(const u32* samples, u32 row) { return samples[sample_place(row) + TAG_AT]; }
inline const u32* sample_codes(const u32* samples, u32 row) { return &samples[sample_place(row) + RED_AT]; }
inline u32 sample_next(const u32* samples, u32 row) { return samples[sample_place(row) + NEXT_AT]; }
inline void set_sample(u32* samples, u32 row, Tag tag, const u32 codes[3]) {
  u32* words = &samples[sample_place(row)];
  words[TAG_AT] = tag;
  for (int i = 0; i < 3; i++) words[RED_AT + i] = codes[i];
}
inline void set_sample_next(u32* samples, u32 row, u32 next) { samples[sample_place(row) + NEXT_AT] = next; }

// The same, read through a pointer to the row. Both ways are there because the compiler makes other code of each, and
// the hand-written C++ is measured.
inline const u32* sample_row(const u32* samples, size_t row) { return samples + SAMPLE_HEADER + SAMPLE_ROW * row; }
inline Tag sample_tag(const u32* row) { return row[TAG_AT]; }
inline const u32* sample_codes(const u32* row) { return row + RED_AT; }
inline u32 sample_next(const u32* row) { return row[NEXT_AT]; }

// The header of an octant table.
inline u32 octant_count(const u32* octants) { return octants[OCTANT_COUNT_AT]; }
inline void set_octant_count(u32* octants, u32 count) { octants[OCTANT_COUNT_AT] = count; }

// An octant row, to be read or written: its first and last sample row, how many samples it holds, and the octant row of
// child k, 0 if there is none.
template <class Word>
Word* octant_row(Word* octants, size_t row) {
  return octants + OCTANT_HEADER + OCTANT_ROW * row;
}
inline u32 octant_first(const u32* row) { return row[FIRST_AT]; }
inline u32 octant_held(const u32* row) { return row[HELD_AT]; }
inline u32 octant_child(const u32* row, u32 k) { return row[CHILDREN_AT + k]; }
inline void set_octant_first(u32* row, u32 first) { row[FIRST_AT] = first; }
inline void set_octant_last(u32* row, u32 last) { row[LAST_AT] = last; }
inline void set_octant_held(u32* row, u32 held) { row[HELD_AT] = held; }
inline void set_octant_child(u32* row, u32 k, u32 child) { row[CHILDREN_AT + k] = child; }
