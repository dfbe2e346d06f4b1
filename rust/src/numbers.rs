//! The numbers of codes, of sheets and of tables, and the words of a table by name.
//!
//! # Codes and panel floats
//!
//! A code is at most [`MOST_CODE`]. A channel `v` of a panel colour is in range if `0 <= v <` [`CHANNEL_LIMIT`], and a
//! radius `v` if `0 <= v <` [`RADIUS_LIMIT`]; minus zero counts as zero. The code of either is the greatest whole `k`
//! with `k <=` [`SCALE`] `* v`, so that of a radius is at most [`MOST_RADIUS`]. A code is shown as the float code /
//! [`SCALE`], which is exact; the code of that is the code again.
//!
//! # Sheets
//!
//! A sheet is a header of [`HEADER_LENGTH`] bytes, then lines of [`LINE_LENGTH`] bytes. The header is the [`TITLE`],
//! the number of lines in [`COUNT_COLUMNS`] and a newline. A line is the tag in [`TAG_COLUMNS`], red, green and blue in
//! [`CODE_COLUMNS`] each, a blank, the reel name at the left of [`NAME_COLUMNS`] with blanks after it, and a newline.
//!
//! ```
//! use hubeltxa::numbers::{COUNT_COLUMNS, LINE_LENGTH, TITLE};
//!
//! let mut lines = [[0; LINE_LENGTH]; 2];
//! hubeltxa::write_line(7, [0, 32_768, 65_535], b"A001", &mut lines[0])?;
//! hubeltxa::write_line(u32::MAX, [65_535; 3], b"A002", &mut lines[1])?;
//!
//! assert_eq!(format!("{TITLE}{:>COUNT_COLUMNS$}\n", lines.len()), "SWATCHES     2\n");
//! assert_eq!(&lines[0], b"         7     0 32768 65535 A001                            \n");
//! assert_eq!(&lines[1], b"4294967295 65535 65535 65535 A002                            \n");
//! # Ok::<(), hubeltxa::Refusal>(())
//! ```
//!
//! A number is decimal, at the right of its columns, with blanks before it and no leading zero but in 0 itself. A name
//! is good if it has 1 to [`NAME_COLUMNS`] bytes, each from 33 to 126. A blank is byte 32, a newline byte 10. A line is
//! good if it is so formed, its name is good, its first number is a tag and the others are codes. A header is good if
//! it is so formed and the sheet is exactly as long as its count says.
//!
//! # Tables
//!
//! A table is a header, then rows, counted from 0; every word that no row of the set uses is 0.
//!
//! - The sample table has a header of [`SAMPLE_HEADER`] words: the sample count and the bucket size. A row has
//!   [`SAMPLE_ROW`] words, as the samples came in: tag, red, green, blue, next. Next is the row of the sample that
//!   follows in the order, the count for the last. Of the rows that fit [`MOST_SAMPLES`] are used at most.
//! - The octant table has a header of [`OCTANT_HEADER`] words: the octant count. A row has [`OCTANT_ROW`] words, an
//!   octant before its children and child 0's whole subtree before child 1's: first sample row and last sample row in
//!   the order, sample count, the rows of children 0 to 7, 0 if a child holds nothing.
//!
//! ```
//! use hubeltxa::SampleSet;
//!
//! let mut set = SampleSet::new(3, 3, 2)?; // room for three samples and three octants, bucket size 2
//! for (tag, grey) in [(7, 0), (8, 65_535), (9, 0)] {
//!     set.add(tag, [grey; 3])?;
//! }
//! let samples = [
//!     &[3, 2][..], // three samples, bucket size 2
//!     &[7, 0, 0, 0, 2],
//!     &[8, 65_535, 65_535, 65_535, 3],
//!     &[9, 0, 0, 0, 1],
//! ];
//! let octants = [
//!     &[3][..],                           // three octants
//!     &[0, 1, 3, 1, 0, 0, 0, 0, 0, 0, 2], // the root
//!     &[0, 2, 2, 0, 0, 0, 0, 0, 0, 0, 0], // the darkest eighth, with 7 and 9
//!     &[1, 1, 1, 0, 0, 0, 0, 0, 0, 0, 0], // the lightest, with 8
//! ];
//! assert_eq!(set.sample_words(), samples.concat());
//! assert_eq!(set.octant_words(), octants.concat());
//! # Ok::<(), hubeltxa::Refusal>(())
//! ```
//!
//! A function here that reads a word panics if the table is too short to have it.

/// The greatest code.
///
/// ```
/// use hubeltxa::{floats, numbers::MOST_CODE, Refusal};
///
/// assert!(floats([MOST_CODE; 3]).is_ok());
/// assert_eq!(floats([0, 0, MOST_CODE + 1]), Err(Refusal::Code));
/// ```
pub const MOST_CODE: u32 = 65_535;

/// How many codes a float of 1 is: a code is shown as code / `SCALE`.
///
/// ```
/// use hubeltxa::numbers::SCALE;
///
/// assert_eq!(hubeltxa::floats([0, 3, 60_000]), Ok([0.0, 3.0 / SCALE, 60_000.0 / SCALE]));
/// ```
pub const SCALE: f32 = 65_536.0;

/// The limit of a channel, which is not in range itself.
///
/// ```
/// use hubeltxa::{codes, numbers::CHANNEL_LIMIT, Refusal};
///
/// assert_eq!(codes([0.0, 0.5, CHANNEL_LIMIT]), Err(Refusal::OutOfRange));
/// ```
pub const CHANNEL_LIMIT: f32 = 1.0;

/// The limit of a radius, which is not in range itself.
///
/// ```
/// use hubeltxa::{numbers::RADIUS_LIMIT, Refusal, SampleSet};
///
/// let set = SampleSet::for_samples(100, 16)?;
/// assert_eq!(set.nearest([0.0; 3], RADIUS_LIMIT), Err(Refusal::OutOfRange));
/// # Ok::<(), Refusal>(())
/// ```
pub const RADIUS_LIMIT: f32 = 2.0;

/// The greatest radius as a code.
///
/// ```
/// use hubeltxa::{numbers::{MOST_RADIUS, SCALE}, Refusal, SampleSet};
///
/// let set = SampleSet::for_samples(100, 16)?;
/// assert_eq!(set.nearest([0.0; 3], MOST_RADIUS as f32 / SCALE), Ok(None));
/// assert_eq!(set.nearest([0.0; 3], (MOST_RADIUS + 1) as f32 / SCALE), Err(Refusal::OutOfRange));
/// # Ok::<(), Refusal>(())
/// ```
pub const MOST_RADIUS: u32 = (RADIUS_LIMIT * SCALE) as u32 - 1;

/// What a sheet starts with.
///
/// ```
/// assert_eq!(hubeltxa::numbers::TITLE, "SWATCHES");
/// ```
pub const TITLE: &str = "SWATCHES";

/// The columns of the number of lines, in a sheet's header.
///
/// ```
/// use hubeltxa::numbers::{COUNT_COLUMNS, TITLE};
///
/// let no_lines = format!("{TITLE}{:>COUNT_COLUMNS$}\n", 0);
/// assert_eq!(hubeltxa::SampleSet::for_samples(100, 16)?.load(no_lines.as_bytes()), Ok(0));
/// # Ok::<(), hubeltxa::Refusal>(())
/// ```
pub const COUNT_COLUMNS: usize = 6;

/// The bytes of a sheet's header.
///
/// ```
/// use hubeltxa::numbers::{COUNT_COLUMNS, TITLE};
///
/// assert_eq!(format!("{TITLE}{:>COUNT_COLUMNS$}\n", 2).len(), hubeltxa::HEADER_LENGTH);
/// ```
pub const HEADER_LENGTH: usize = TITLE.len() + COUNT_COLUMNS + 1;

/// The columns of the tag, from the start of a line on.
///
/// ```
/// use hubeltxa::{numbers::TAG_COLUMNS, LINE_LENGTH};
///
/// let mut line = [0; LINE_LENGTH];
/// hubeltxa::write_line(7, [10, 20, 30], b"A001", &mut line)?;
/// assert!(line[..TAG_COLUMNS].ends_with(b" 7"));
/// # Ok::<(), hubeltxa::Refusal>(())
/// ```
pub const TAG_COLUMNS: usize = 10;

/// The columns of each of red, green and blue, after the tag.
///
/// ```
/// use hubeltxa::{numbers::{CODE_COLUMNS, TAG_COLUMNS}, LINE_LENGTH};
///
/// let mut line = [0; LINE_LENGTH];
/// hubeltxa::write_line(7, [10, 20, 30], b"A001", &mut line)?;
/// let mut codes = line[TAG_COLUMNS..].chunks(CODE_COLUMNS);
/// assert!([" 10", " 20", " 30"].iter().all(|code| codes.next().unwrap().ends_with(code.as_bytes())));
/// # Ok::<(), hubeltxa::Refusal>(())
/// ```
pub const CODE_COLUMNS: usize = 6;

/// The columns of the reel name, and the most bytes that it can have.
///
/// ```
/// use hubeltxa::{numbers::NAME_COLUMNS, write_line, Refusal, LINE_LENGTH};
///
/// let mut line = [0; LINE_LENGTH];
/// assert_eq!(write_line(7, [0; 3], &[b'A'; NAME_COLUMNS], &mut line), Ok(()));
/// assert_eq!(write_line(7, [0; 3], &[b'A'; NAME_COLUMNS + 1], &mut line), Err(Refusal::Name));
/// ```
pub const NAME_COLUMNS: usize = 32;

/// The bytes of a line before the reel name: the tag, the three codes and a blank.
///
/// ```
/// use hubeltxa::{numbers::NAME_START, LINE_LENGTH};
///
/// let mut line = [0; LINE_LENGTH];
/// hubeltxa::write_line(7, [10, 20, 30], b"A001", &mut line)?;
/// assert!(line[NAME_START..].starts_with(b"A001 "));
/// # Ok::<(), hubeltxa::Refusal>(())
/// ```
pub const NAME_START: usize = TAG_COLUMNS + 3 * CODE_COLUMNS + 1;

/// The bytes of a sheet's line.
///
/// ```
/// use hubeltxa::{numbers::{COUNT_COLUMNS, TITLE}, HEADER_LENGTH, LINE_LENGTH};
///
/// let lines = 2;
/// let mut sheet = format!("{TITLE}{lines:>COUNT_COLUMNS$}\n").into_bytes();
/// sheet.resize(HEADER_LENGTH + lines * LINE_LENGTH, 0);
/// for (line, tag) in sheet[HEADER_LENGTH..].chunks_exact_mut(LINE_LENGTH).zip([7, 8]) {
///     hubeltxa::write_line(tag, [0, 32_768, 65_535], b"A001", line)?;
/// }
/// assert_eq!(hubeltxa::name(&sheet, 8), b"A001");
/// # Ok::<(), hubeltxa::Refusal>(())
/// ```
pub const LINE_LENGTH: usize = NAME_START + NAME_COLUMNS + 1;

/// The words of the sample table before its rows.
///
/// ```
/// use hubeltxa::{lent, numbers::SAMPLE_HEADER, Refusal};
///
/// let (mut samples, mut octants) = ([0; SAMPLE_HEADER], [0; lent::octant_words(0)]); // no rows
/// assert_eq!(lent::clear(&mut samples, &mut octants, 16), Ok(()));
/// assert_eq!(lent::clear(&mut samples[1..], &mut octants, 16), Err(Refusal::TooShort));
/// ```
pub const SAMPLE_HEADER: usize = 2;

/// The words of a sample row.
///
/// ```
/// use hubeltxa::numbers::{sample_words, SAMPLE_HEADER, SAMPLE_ROW};
///
/// assert_eq!(sample_words(512), SAMPLE_HEADER + 512 * SAMPLE_ROW);
/// ```
pub const SAMPLE_ROW: usize = 5;

/// The words of the octant table before its rows.
///
/// ```
/// use hubeltxa::{lent, numbers::OCTANT_HEADER, Refusal};
///
/// let (mut samples, mut octants) = ([0; lent::sample_words(0)], [0; OCTANT_HEADER]); // no rows
/// assert_eq!(lent::clear(&mut samples, &mut octants, 16), Ok(()));
/// assert_eq!(lent::clear(&mut samples, &mut octants[1..], 16), Err(Refusal::TooShort));
/// ```
pub const OCTANT_HEADER: usize = 1;

/// The words of an octant row.
///
/// ```
/// use hubeltxa::numbers::{octant_words, OCTANT_HEADER, OCTANT_ROW};
///
/// assert_eq!(octant_words(1_489), OCTANT_HEADER + 1_489 * OCTANT_ROW);
/// ```
pub const OCTANT_ROW: usize = 11;

/// The most samples that a set can hold.
///
/// ```
/// use hubeltxa::{numbers::MOST_SAMPLES, SampleSet};
///
/// assert_eq!(SampleSet::for_samples(1_000_000, 16)?.capacity(), MOST_SAMPLES);
/// # Ok::<(), hubeltxa::Refusal>(())
/// ```
pub const MOST_SAMPLES: usize = 4_096;

/// As many octant rows for each sample are always enough (proved).
///
/// ```
/// use hubeltxa::{numbers::OCTANTS_A_SAMPLE, SampleSet};
///
/// assert_eq!(SampleSet::for_samples(512, 16)?.octant_capacity(), 512 * OCTANTS_A_SAMPLE);
/// # Ok::<(), hubeltxa::Refusal>(())
/// ```
pub const OCTANTS_A_SAMPLE: usize = 17;

/// The greatest bucket size; the least is 1.
///
/// ```
/// use hubeltxa::{numbers::MOST_BUCKET, Refusal, SampleSet};
///
/// assert!(SampleSet::for_samples(100, MOST_BUCKET).is_ok());
/// assert_eq!(SampleSet::for_samples(100, MOST_BUCKET + 1), Err(Refusal::Bucket));
/// ```
pub const MOST_BUCKET: u32 = 256;

/// The words of a sample table with so many rows: [`MOST_SAMPLES`] at most are used. It is also where the row of that
/// number starts.
///
/// ```
/// let mut samples = [0; hubeltxa::lent::sample_words(512)];
/// let mut octants = [0; hubeltxa::lent::octant_words(512)];
/// hubeltxa::lent::clear(&mut samples, &mut octants, 16)?; // room for 512 samples
/// # Ok::<(), hubeltxa::Refusal>(())
/// ```
pub const fn sample_words(rows: usize) -> usize {
    SAMPLE_HEADER + SAMPLE_ROW * rows
}

/// The words of an octant table with so many rows. A set of n samples never needs more than n * [`OCTANTS_A_SAMPLE`]
/// rows. It is also where the row of that number starts.
///
/// ```
/// use hubeltxa::{lent, numbers::OCTANTS_A_SAMPLE};
///
/// // Room for one sample, whatever its colour is.
/// let (mut samples, mut octants) = ([0; lent::sample_words(1)], [0; lent::octant_words(OCTANTS_A_SAMPLE)]);
/// lent::clear(&mut samples, &mut octants, 16)?;
/// lent::add(&mut samples, &mut octants, 7, [1, 2, 3])?;
/// # Ok::<(), hubeltxa::Refusal>(())
/// ```
pub const fn octant_words(rows: usize) -> usize {
    OCTANT_HEADER + OCTANT_ROW * rows
}

/// How many samples the set of a sample table has.
///
/// ```
/// let mut set = hubeltxa::SampleSet::for_samples(100, 16)?;
/// set.add(7, [1, 2, 3])?;
/// assert_eq!(hubeltxa::numbers::sample_count(set.sample_words()), 1);
/// # Ok::<(), hubeltxa::Refusal>(())
/// ```
pub fn sample_count(samples: &[u32]) -> usize {
    samples[0] as usize
}

/// The bucket size of the set of a sample table.
///
/// ```
/// let set = hubeltxa::SampleSet::for_samples(100, 16)?;
/// assert_eq!(hubeltxa::numbers::bucket(set.sample_words()), 16);
/// # Ok::<(), hubeltxa::Refusal>(())
/// ```
pub fn bucket(samples: &[u32]) -> u32 {
    samples[1]
}

/// The tag in a sample row.
///
/// ```
/// let mut set = hubeltxa::SampleSet::for_samples(100, 16)?;
/// set.add(7, [1, 2, 3])?;
/// assert_eq!(hubeltxa::numbers::sample_tag(set.sample_words(), 0), 7);
/// # Ok::<(), hubeltxa::Refusal>(())
/// ```
pub fn sample_tag(samples: &[u32], row: usize) -> u32 {
    samples[sample_words(row)]
}

/// Red, green and blue in a sample row.
///
/// ```
/// let mut set = hubeltxa::SampleSet::for_samples(100, 16)?;
/// set.add(7, [1, 2, 3])?;
/// assert_eq!(hubeltxa::numbers::sample_codes(set.sample_words(), 0), [1, 2, 3]);
/// # Ok::<(), hubeltxa::Refusal>(())
/// ```
pub fn sample_codes(samples: &[u32], row: usize) -> [u32; 3] {
    [1, 2, 3].map(|place| samples[sample_words(row) + place])
}

/// The row of the sample that follows a sample row's in the order; the sample count if it is the last.
///
/// ```
/// use hubeltxa::numbers::sample_next;
///
/// let mut set = hubeltxa::SampleSet::for_samples(100, 1)?;
/// set.add(7, [65_535; 3])?;
/// set.add(8, [0; 3])?; // before 7, in the order
/// assert_eq!([0, 1].map(|row| sample_next(set.sample_words(), row)), [2, 0]);
/// # Ok::<(), hubeltxa::Refusal>(())
/// ```
pub fn sample_next(samples: &[u32], row: usize) -> usize {
    samples[sample_words(row) + 4] as usize
}

/// How many octants an octant table has.
///
/// ```
/// let mut set = hubeltxa::SampleSet::for_samples(100, 16)?;
/// set.add(7, [1, 2, 3])?;
/// assert_eq!(hubeltxa::numbers::octant_count(set.octant_words()), 1);
/// # Ok::<(), hubeltxa::Refusal>(())
/// ```
pub fn octant_count(octants: &[u32]) -> usize {
    octants[0] as usize
}

/// The first sample row, in the order, of the octant in an octant row. Row 0 is the root, which has all samples.
///
/// ```
/// let mut set = hubeltxa::SampleSet::for_samples(100, 1)?;
/// set.add(7, [65_535; 3])?;
/// set.add(8, [0; 3])?; // before 7, in the order
/// assert_eq!(hubeltxa::numbers::octant_first(set.octant_words(), 0), 1);
/// # Ok::<(), hubeltxa::Refusal>(())
/// ```
pub fn octant_first(octants: &[u32], row: usize) -> usize {
    octants[octant_words(row)] as usize
}
