//! The calls on tables that the caller lends, as the C header has them. [`SampleSet`](crate::SampleSet) owns its
//! tables, and is simpler if that will do.
//!
//! A call takes both tables, of any lengths. If nothing else writes them, tables are sound after a [`clear`] and
//! after each call from then on. A refused call leaves tables and listing as they were; only [`load`] keeps the lines
//! before the one that it refused.
//!
//! [`add`], [`remove`], [`load`] and [`check`] look at every word of both tables, and need less than 80,000 bytes of
//! stack; the queries less than 8,000. These are bounds on what was measured, and not proved.

use crate::answer::{Listed, Nearest};
use crate::raw;
use crate::refusal::{unless_refused, Refusal, RefusedLoad};

pub use crate::numbers::{octant_words, sample_words};

/// Writes the tables of the empty set with this bucket size, whatever words they held.
///
/// # Errors
/// The first of these that is so; nothing is written then:
/// - [`Refusal::TooShort`] (1) if a table is shorter than its header;
/// - [`Refusal::Bucket`] (3) if the bucket size is not from 1 to [`MOST_BUCKET`](crate::numbers::MOST_BUCKET).
///
/// ```
/// use hubeltxa::{lent, numbers, Refusal};
///
/// let (mut samples, mut octants) = ([9; lent::sample_words(2)], [9; lent::octant_words(1)]);
/// assert_eq!(lent::clear(&mut samples, &mut octants, numbers::MOST_BUCKET + 1), Err(Refusal::Bucket));
/// assert!(samples.iter().chain(&octants).all(|&word| word == 9));
///
/// lent::clear(&mut samples, &mut octants, numbers::MOST_BUCKET)?;
/// assert!(lent::check(&samples, &octants));
/// assert_eq!((numbers::sample_count(&samples), numbers::octant_count(&octants)), (0, 0));
/// assert_eq!(numbers::bucket(&samples), numbers::MOST_BUCKET);
/// # Ok::<(), Refusal>(())
/// ```
pub fn clear(samples: &mut [u32], octants: &mut [u32], bucket: u32) -> Result<(), Refusal> {
    // SAFETY: each pointer and length is a slice's, and both slices are borrowed alone.
    let number =
        unsafe { raw::hbx_clear(samples.as_mut_ptr(), samples.len(), octants.as_mut_ptr(), octants.len(), bucket) };
    unless_refused(number, ())
}

/// Whether the tables are sound: every word of both is what the tables of some set have there. Tables
/// that are too short are not.
///
/// ```
/// use hubeltxa::lent;
///
/// let (mut samples, mut octants) = ([0; lent::sample_words(1)], [0; lent::octant_words(1)]);
/// assert!(!lent::check(&samples, &octants)); // no bucket size yet
/// lent::clear(&mut samples, &mut octants, 16)?;
/// assert!(lent::check(&samples, &octants));
///
/// lent::add(&mut samples, &mut octants, 7, [1, 2, 3])?;
/// assert!(lent::check(&samples, &octants));
/// assert!(!lent::check(&samples, &[0; lent::octant_words(1)])); // a sample, and no octant
/// # Ok::<(), hubeltxa::Refusal>(())
/// ```
pub fn check(samples: &[u32], octants: &[u32]) -> bool {
    // SAFETY: each pointer and length is a slice's.
    unsafe { raw::hbx_check(samples.as_ptr(), samples.len(), octants.as_ptr(), octants.len()) != 0 }
}

/// Adds a sample at the end of the set.
///
/// # Errors
/// The first of these that is so; both tables are as they were then:
/// - [`Refusal::TooShort`] (1) if a table is shorter than its header;
/// - [`Refusal::Unsound`] (2) if the tables are not sound;
/// - [`Refusal::Code`] (4) if a code is over [`MOST_CODE`](crate::numbers::MOST_CODE);
/// - [`Refusal::KnownTag`] (5) if a sample of the set has the tag;
/// - [`Refusal::NoRow`] (6) if no sample row is unused;
/// - [`Refusal::NoOctants`] (7) if there are too few octant rows for the set with the sample.
///
/// ```
/// use hubeltxa::{lent, numbers, Refusal};
///
/// // Two sample rows, and octant rows enough.
/// let (mut samples, mut octants) = ([0; lent::sample_words(2)], [0; lent::octant_words(40)]);
/// assert_eq!(lent::add(&mut samples, &mut octants, 7, [1, 2, 3]), Err(Refusal::Unsound)); // no bucket size yet
///
/// lent::clear(&mut samples, &mut octants, 16)?;
/// lent::add(&mut samples, &mut octants, 7, [1, 2, 3])?;
/// assert_eq!(numbers::sample_count(&samples), 1);
/// assert_eq!((numbers::sample_tag(&samples, 0), numbers::sample_codes(&samples, 0)), (7, [1, 2, 3]));
///
/// assert_eq!(lent::add(&mut samples, &mut octants, 8, [1, 2, numbers::MOST_CODE + 1]), Err(Refusal::Code));
/// assert_eq!(lent::add(&mut samples, &mut octants, 7, [4, 5, 6]), Err(Refusal::KnownTag));
/// lent::add(&mut samples, &mut octants, 8, [4, 5, 6])?;
/// assert_eq!(lent::add(&mut samples, &mut octants, 9, [4, 5, 6]), Err(Refusal::NoRow));
/// # Ok::<(), Refusal>(())
/// ```
pub fn add(samples: &mut [u32], octants: &mut [u32], tag: u32, codes: [u32; 3]) -> Result<(), Refusal> {
    let [red, green, blue] = codes;
    let (s, o) = (samples.as_mut_ptr(), octants.as_mut_ptr());
    // SAFETY: each pointer and length is a slice's, and both slices are borrowed alone.
    let number = unsafe { raw::hbx_add(s, samples.len(), o, octants.len(), tag, red, green, blue) };
    unless_refused(number, ())
}

/// Removes the sample with a tag. The others keep their order, and those after it move one row up: its
/// row can be used again.
///
/// # Errors
/// The first of these that is so; both tables are as they were then:
/// - [`Refusal::TooShort`] (1) if a table is shorter than its header;
/// - [`Refusal::Unsound`] (2) if the tables are not sound;
/// - [`Refusal::UnknownTag`] (8) if no sample of the set has the tag.
///
/// ```
/// use hubeltxa::{lent, numbers, Refusal};
///
/// let (mut samples, mut octants) = ([0; lent::sample_words(2)], [0; lent::octant_words(1)]);
/// lent::clear(&mut samples, &mut octants, 16)?;
/// lent::add(&mut samples, &mut octants, 7, [1, 2, 3])?;
/// lent::add(&mut samples, &mut octants, 8, [4, 5, 6])?;
///
/// assert_eq!(lent::remove(&mut samples, &mut octants, 9), Err(Refusal::UnknownTag));
/// lent::remove(&mut samples, &mut octants, 7)?;
/// assert_eq!(numbers::sample_count(&samples), 1);
/// assert_eq!((numbers::sample_tag(&samples, 0), numbers::sample_codes(&samples, 0)), (8, [4, 5, 6]));
/// # Ok::<(), Refusal>(())
/// ```
pub fn remove(samples: &mut [u32], octants: &mut [u32], tag: u32) -> Result<(), Refusal> {
    let (s, o) = (samples.as_mut_ptr(), octants.as_mut_ptr());
    // SAFETY: each pointer and length is a slice's, and both slices are borrowed alone.
    let number = unsafe { raw::hbx_remove(s, samples.len(), o, octants.len(), tag) };
    unless_refused(number, ())
}

/// Adds the samples of a sheet's lines, line by line, up to the first line that is refused. Gives how many
/// lines were taken: all of them. The reel names are checked and not kept.
///
/// # Errors
/// The first of these that is so; both tables are as they were then, and `taken` is 0:
/// - [`Refusal::TooShort`] (1) if a table is shorter than its header;
/// - [`Refusal::Unsound`] (2) if the tables are not sound;
/// - [`Refusal::Header`] (11) if the header is not good.
///
/// Otherwise the first of these that is so of the first line that is refused; the lines before it stay in
/// the set, and `taken` is how many they are:
/// - [`Refusal::Line`] (12) if the line is not good;
/// - [`Refusal::KnownTag`] (5) if a sample of the set, or of a line before it, has the tag;
/// - [`Refusal::NoRow`] (6) if no sample row is unused;
/// - [`Refusal::NoOctants`] (7) if there are too few octant rows for the set with the sample.
///
/// ```
/// use hubeltxa::numbers::{sample_tag, COUNT_COLUMNS, LINE_LENGTH, TITLE};
/// use hubeltxa::{lent, write_line, Refusal, RefusedLoad};
///
/// let mut lines = [[0; LINE_LENGTH]; 2];
/// write_line(7, [0; 3], b"A001", &mut lines[0])?;
/// write_line(8, [65_535; 3], b"A002", &mut lines[1])?;
/// let sheet = [format!("{TITLE}{:>COUNT_COLUMNS$}\n", 2).as_bytes(), &lines.concat()].concat();
///
/// let (mut samples, mut octants) = ([0; lent::sample_words(2)], [0; lent::octant_words(3)]);
/// lent::clear(&mut samples, &mut octants, 16)?;
/// assert_eq!(lent::load(&mut samples, &mut octants, &sheet), Ok(2));
/// assert_eq!([0, 1].map(|row| sample_tag(&samples, row)), [7, 8]);
///
/// lent::remove(&mut samples, &mut octants, 7)?;
/// let refused = RefusedLoad { refusal: Refusal::KnownTag, taken: 1 }; // 7 is taken again, and 8 is in the set
/// assert_eq!(lent::load(&mut samples, &mut octants, &sheet), Err(refused));
/// assert_eq!([0, 1].map(|row| sample_tag(&samples, row)), [8, 7]);
/// # Ok::<(), Refusal>(())
/// ```
pub fn load(samples: &mut [u32], octants: &mut [u32], sheet: &[u8]) -> Result<u32, RefusedLoad> {
    let mut taken = 0;
    let (s, o) = (samples.as_mut_ptr(), octants.as_mut_ptr());
    // SAFETY: each pointer and length is a slice's, and what is written is borrowed alone; the last
    // pointer is to a local.
    let number = unsafe { raw::hbx_load(s, samples.len(), o, octants.len(), sheet.as_ptr(), sheet.len(), &mut taken) };
    unless_refused(number, taken).map_err(|refusal| RefusedLoad { refusal, taken })
}

/// Lists the tags of the samples in a ball, in the order of the samples, from the listing's first word on;
/// the words after them stay as they were. The tables are only read.
///
/// Centre and radius are taken as codes, by the rule of [`codes`](crate::codes). A sample is in the ball if d² < r²:
/// d² is the sum of the three squared differences between its codes and the centre's, r the radius as a
/// code.
///
/// A listing of as many words as samples (the table's count, or the sample rows if they are fewer) is never too short,
/// and is written in one pass. For a shorter one the tags are counted first.
///
/// The call does not ask whether the tables are sound, which would cost more than the query. On tables that
/// are not it ends as well, and writes nothing else, but the listing then means nothing: see [`check`].
///
/// # Errors
/// The first of these that is so; the listing is as it was then:
/// - [`Refusal::TooShort`] (1) if a table is shorter than its header;
/// - [`Refusal::OutOfRange`] (9) if a channel of the centre or the radius is out of range;
/// - [`Refusal::NoRoom`] (13) if the listing is shorter than all that is in the ball.
///
/// ```
/// use hubeltxa::{lent, Listed, Refusal};
///
/// let (mut samples, mut octants) = ([0; lent::sample_words(3)], [0; lent::octant_words(3)]);
/// lent::clear(&mut samples, &mut octants, 2)?;
/// for (tag, grey) in [(7, 0), (8, 65_535), (9, 0)] {
///     lent::add(&mut samples, &mut octants, tag, [grey; 3])?;
/// }
///
/// let mut listing = [0; 3];
/// let black = lent::ball(&samples, &octants, [0.0; 3], 0.001, &mut listing)?;
/// assert_eq!(black, Listed { tags: &[7, 9], entered: 2, measured: 2 });
///
/// let all = lent::ball(&samples, &octants, [0.0; 3], 1.999, &mut listing)?;
/// assert_eq!(all, Listed { tags: &[7, 9, 8], entered: 1, measured: 0 });
///
/// assert_eq!(lent::ball(&samples, &octants, [0.0; 3], 2.5, &mut listing), Err(Refusal::OutOfRange));
/// assert_eq!(lent::ball(&samples, &octants, [0.0; 3], 1.999, &mut listing[..2]), Err(Refusal::NoRoom));
/// # Ok::<(), Refusal>(())
/// ```
pub fn ball<'a>(
    samples: &[u32],
    octants: &[u32],
    centre: [f32; 3],
    radius: f32,
    listing: &'a mut [u32],
) -> Result<Listed<'a>, Refusal> {
    let [mut listed, mut entered, mut measured] = [0; 3];
    // SAFETY: each pointer and length is a slice's, and the one that is written is borrowed alone; the last
    // pointers are to three locals.
    let number = unsafe {
        raw::hbx_ball(
            samples.as_ptr(),
            samples.len(),
            octants.as_ptr(),
            octants.len(),
            centre[0],
            centre[1],
            centre[2],
            radius,
            listing.as_mut_ptr(),
            listing.len(),
            &mut listed,
            &mut entered,
            &mut measured,
        )
    };
    unless_refused(number, Listed { tags: &listing[..listed as usize], entered, measured })
}

/// Lists the tags of the samples in a box, in the order of the samples, as [`ball`] lists those in a ball: what
/// is said there of the listing and of tables that are not sound holds here.
///
/// The low and the high colour are taken as codes, by the rule of [`codes`](crate::codes). A sample is in the box if
/// low <= code <= high in all three channels.
///
/// # Errors
/// The first of these that is so; the listing is as it was then:
/// - [`Refusal::TooShort`] (1) if a table is shorter than its header;
/// - [`Refusal::OutOfRange`] (9) if a channel of either colour is out of range, or low is above high in one, as codes;
/// - [`Refusal::NoRoom`] (13) if the listing is shorter than all that is in the box.
///
/// ```
/// use hubeltxa::{lent, Listed, Refusal};
///
/// let (mut samples, mut octants) = ([0; lent::sample_words(3)], [0; lent::octant_words(3)]);
/// lent::clear(&mut samples, &mut octants, 2)?;
/// for (tag, grey) in [(7, 0), (8, 65_535), (9, 0)] {
///     lent::add(&mut samples, &mut octants, tag, [grey; 3])?;
/// }
///
/// let (dark, light) = ([0.25; 3], [0.75; 3]);
/// let mut listing = [0; 3];
/// let lighter = lent::box_(&samples, &octants, dark, [0.999_999; 3], &mut listing)?;
/// assert_eq!(lighter, Listed { tags: &[8], entered: 3, measured: 2 });
///
/// let between = lent::box_(&samples, &octants, dark, light, &mut [])?; // nothing to list
/// assert!(between.tags.is_empty());
/// assert_eq!(lent::box_(&samples, &octants, light, dark, &mut listing), Err(Refusal::OutOfRange));
/// # Ok::<(), Refusal>(())
/// ```
pub fn box_<'a>(
    samples: &[u32],
    octants: &[u32],
    low: [f32; 3],
    high: [f32; 3],
    listing: &'a mut [u32],
) -> Result<Listed<'a>, Refusal> {
    let [mut listed, mut entered, mut measured] = [0; 3];
    // SAFETY: as in `ball`.
    let number = unsafe {
        raw::hbx_box(
            samples.as_ptr(),
            samples.len(),
            octants.as_ptr(),
            octants.len(),
            low[0],
            low[1],
            low[2],
            high[0],
            high[1],
            high[2],
            listing.as_mut_ptr(),
            listing.len(),
            &mut listed,
            &mut entered,
            &mut measured,
        )
    };
    unless_refused(number, Listed { tags: &listing[..listed as usize], entered, measured })
}

/// Finds the sample that is nearest to a centre, of those in the ball of this radius, or none if the ball
/// holds none: the least d² < r², as [`ball`] has them, and the first in the order of the samples if several
/// have it. The tables are only read.
///
/// The call does not ask whether the tables are sound, which would cost more than the query. On tables that
/// are not it ends as well, but what it finds then means nothing: see [`check`].
///
/// # Errors
/// The first of these that is so:
/// - [`Refusal::TooShort`] (1) if a table is shorter than its header;
/// - [`Refusal::OutOfRange`] (9) if a channel of the centre or the radius is out of range.
///
/// ```
/// use hubeltxa::{lent, numbers::SCALE, Nearest, Refusal};
///
/// let (mut samples, mut octants) = ([0; lent::sample_words(3)], [0; lent::octant_words(3)]);
/// lent::clear(&mut samples, &mut octants, 2)?;
/// for (tag, grey) in [(7, 0), (8, 65_535), (9, 0)] {
///     lent::add(&mut samples, &mut octants, tag, [grey; 3])?;
/// }
///
/// let dark = [3.0 / SCALE; 3]; // code 3 in each channel
/// let near_dark = lent::nearest(&samples, &octants, dark, 0.001)?;
/// assert_eq!(near_dark, Some(Nearest { tag: 7, distance: 27 })); // 9 is as near, and after it
/// lent::remove(&mut samples, &mut octants, 7)?;
/// assert_eq!(lent::nearest(&samples, &octants, dark, 0.001)?, Some(Nearest { tag: 9, distance: 27 }));
///
/// assert_eq!(lent::nearest(&samples, &octants, [0.5; 3], 0.001)?, None);
/// assert_eq!(lent::nearest(&samples, &octants, [0.5; 3], 2.5), Err(Refusal::OutOfRange));
/// # Ok::<(), Refusal>(())
/// ```
pub fn nearest(samples: &[u32], octants: &[u32], centre: [f32; 3], radius: f32) -> Result<Option<Nearest>, Refusal> {
    let [red, green, blue] = centre;
    let ([mut found, mut tag], mut distance) = ([0; 2], 0);
    let (s, o) = (samples.as_ptr(), octants.as_ptr());
    // SAFETY: each pointer and length is a slice's; the last pointers are to three locals.
    let number = unsafe {
        raw::hbx_near(s, samples.len(), o, octants.len(), red, green, blue, radius, &mut found, &mut tag, &mut distance)
    };
    unless_refused(number, (found != 0).then_some(Nearest { tag, distance }))
}
