//! The numbers of panel floats, of sheets and of the layout, by name, and what reads and writes a row. Nothing else in
//! the tests has them built in: a change of layout, of a sheet's line or of the range of floats is a change here.
//!
//! They are the tests' own, so that the wrapper's are compared with them: `published_numbers` in set.rs. The generator
//! of `make definitions` has them from here too; so this module needs nothing but the standard library.

#![allow(dead_code)]

// Codes and panel floats.

/// The greatest code, and how many codes there are.
pub const MOST_CODE: u32 = 65_535;
pub const CODE_COUNT: usize = MOST_CODE as usize + 1;

/// The code of v is the greatest whole number that is at most SCALE * v, and a code is shown as code / SCALE.
pub const SCALE: u32 = 65_536;

/// A channel is good from 0 up to but not including the first of these, a radius up to but not including the second.
pub const CHANNEL_LIMIT: f32 = 1.0;
pub const RADIUS_LIMIT: f32 = 2.0;

/// The greatest radius as a code.
pub const MOST_RADIUS: u32 = (RADIUS_LIMIT * SCALE as f32) as u32 - 1;

pub fn good_channel(v: f32) -> bool {
    (0.0..CHANNEL_LIMIT).contains(&v)
}

pub fn good_radius(v: f32) -> bool {
    (0.0..RADIUS_LIMIT).contains(&v)
}

/// The first channel that is too great, by its bits, and the greatest that is good; and the same of radii. The next
/// float has the next bits.
pub const BAD_CHANNEL: u32 = CHANNEL_LIMIT.to_bits();
pub const GREATEST_CHANNEL: u32 = BAD_CHANNEL - 1;
pub const BAD_RADIUS: u32 = RADIUS_LIMIT.to_bits();
pub const GREATEST_RADIUS: u32 = BAD_RADIUS - 1;

/// The float that shows a code, or a radius as a code.
pub const fn float(code: u32) -> f32 {
    code as f32 / SCALE as f32
}

/// The least float of a code, by its bits: the float before it is of the code before.
pub const fn least_float(code: u32) -> u32 {
    float(code).to_bits()
}

// Sheets.

/// A header is the title, the number of lines and a newline.
pub const TITLE: &str = "SWATCHES";
pub const COUNT_COLUMNS: usize = 6;
pub const HEADER_LENGTH: usize = TITLE.len() + COUNT_COLUMNS + 1;

/// A line is the tag, three codes, a blank, the name and a newline.
pub const TAG_COLUMNS: usize = 10;
pub const CODE_COLUMNS: usize = 6;
pub const NAME_COLUMNS: usize = 32;
pub const NAME_START: usize = code_start(3) + 1;
pub const LINE_LENGTH: usize = NAME_START + NAME_COLUMNS + 1;

/// Where in a line the columns of a channel start, and where those before it end.
pub const fn code_start(channel: usize) -> usize {
    TAG_COLUMNS + CODE_COLUMNS * channel
}

/// The bytes of a sheet of so many lines: there the next line would start.
pub const fn sheet_length(lines: usize) -> usize {
    HEADER_LENGTH + LINE_LENGTH * lines
}

/// The program walklist.
pub mod walklist {
    use super::*;

    /// What it reads at most, in bytes, and the lines of the longest sheet that it reads whole.
    pub const MOST_READ: usize = 32_768;
    pub const MOST_LINES: usize = (MOST_READ - HEADER_LENGTH) / LINE_LENGTH;

    /// The sample rows and the octant rows that it has.
    pub const ROWS: usize = 512;
    pub const OCTANTS: usize = 1_489;
}

// The layout.

pub type Tag = u32;
pub const MOST_TAG: Tag = Tag::MAX;

/// The most samples of a set, and as many octants as always suffice for one sample, and for the most.
pub const MOST_SAMPLES: usize = 4_096;
pub const OCTANTS_A_SAMPLE: usize = 17;
pub const MOST_OCTANTS: usize = OCTANTS_A_SAMPLE * MOST_SAMPLES;

/// The greatest bucket size.
pub const MOST_BUCKET: u32 = 256;

/// The words before the rows: sample count and bucket size; octant count. And where these stand.
pub const SAMPLE_HEADER: usize = 2;
pub const OCTANT_HEADER: usize = 1;
pub const SAMPLE_COUNT: usize = 0;
pub const BUCKET_SIZE: usize = 1;
pub const OCTANT_COUNT: usize = 0;

/// The words of a row: tag, red, green, blue, next; first and last sample row, sample count, child rows 0 to 7.
pub const SAMPLE_ROW: usize = 5;
pub const OCTANT_ROW: usize = 11;

/// Where in a sample row the tag and red stand, and next, which is its last word.
const TAG: usize = 0;
const RED: usize = 1;
pub const NEXT: usize = SAMPLE_ROW - 1;

/// The words of a table with so many rows: there the next row would start.
pub const fn sample_words(rows: usize) -> usize {
    SAMPLE_HEADER + SAMPLE_ROW * rows
}

pub const fn octant_words(rows: usize) -> usize {
    OCTANT_HEADER + OCTANT_ROW * rows
}

/// Whether one of two tables of these lengths is too short to be a table.
pub fn too_short(sample_words: usize, octant_words: usize) -> bool {
    sample_words < SAMPLE_HEADER || octant_words < OCTANT_HEADER
}

/// The rows of a sample table of this length.
pub fn sample_rows(words: usize) -> usize {
    (words.saturating_sub(SAMPLE_HEADER) / SAMPLE_ROW).min(MOST_SAMPLES)
}

pub fn sample_count(samples: &[u32]) -> usize {
    samples[SAMPLE_COUNT] as usize
}

pub fn octant_count(octants: &[u32]) -> usize {
    octants[OCTANT_COUNT] as usize
}

/// The tag in a row; none if the table ends before it.
pub fn tag_of(samples: &[u32], row: usize) -> Option<Tag> {
    samples.get(sample_words(row) + TAG).copied()
}

/// Where a code of a row stands.
pub fn code_place(row: usize, channel: usize) -> usize {
    sample_words(row) + RED + channel
}

pub fn codes_of(samples: &[u32], row: usize) -> [u32; 3] {
    [0, 1, 2].map(|channel| samples[code_place(row, channel)])
}

pub fn next_of(samples: &[u32], row: usize) -> u32 {
    samples[sample_words(row) + NEXT]
}

/// The words before the rows of a sample table, and a row.
pub fn sample_header(count: u32, bucket: u32) -> [u32; SAMPLE_HEADER] {
    [count, bucket]
}

pub fn sample_row(tag: Tag, [red, green, blue]: [u32; 3], next: u32) -> [u32; SAMPLE_ROW] {
    [tag, red, green, blue, next]
}

/// The same of an octant table.
pub fn octant_header(count: u32) -> [u32; OCTANT_HEADER] {
    [count]
}

pub fn octant_row(first: u32, last: u32, count: u32, [a, b, c, d, e, f, g, h]: [u32; 8]) -> [u32; OCTANT_ROW] {
    [first, last, count, a, b, c, d, e, f, g, h]
}
