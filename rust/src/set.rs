//! A sample set that owns its tables.

use crate::answer::{Listed, Nearest};
use crate::refusal::{Refusal, RefusedLoad};
use crate::{lent, numbers};
use std::fmt::{self, Debug, Formatter};

/// A tag and a colour: see [`SampleSet::samples`] and [`SampleSet::in_order`].
///
/// ```
/// use hubeltxa::{Sample, SampleSet};
///
/// let mut set = SampleSet::for_samples(100, 16)?;
/// set.add(7, [1, 2, 3])?;
/// assert_eq!(set.samples().next(), Some(Sample { tag: 7, codes: [1, 2, 3] }));
/// # Ok::<(), hubeltxa::Refusal>(())
/// ```
#[derive(Clone, Copy, Debug, PartialEq, Eq, Hash)]
pub struct Sample {
    /// Any number; no two samples of a set have the same.
    pub tag: u32,
    /// Red, green and blue, each from 0 to [`MOST_CODE`](numbers::MOST_CODE).
    pub codes: [u32; 3],
}

/// A set of samples with the two tables that it stands in.
///
/// Only the library's calls write the tables, and [`reserve`](SampleSet::reserve) puts zeros after them, so they are
/// always sound: no method here gives [`TooShort`](Refusal::TooShort) or [`Unsound`](Refusal::Unsound). A query takes
/// the listing as a `Vec`, which it lengthens if it has fewer words than the set has samples, so none gives
/// [`NoRoom`](Refusal::NoRoom) either, and each is one pass. Lend the same `Vec` again and again: it is lengthened no
/// more than the set grows.
///
/// Queries take `&self`, so several threads may ask one set at once. [`add`](SampleSet::add),
/// [`remove`](SampleSet::remove) and [`load`](SampleSet::load) look at every word of both tables, and need less than
/// 80,000 bytes of stack (measured, not proved).
///
/// Two sets are equal if they have the same samples in the same sequence, bucket size, and rows; their tables are
/// then the same, word by word.
///
/// ```
/// use hubeltxa::SampleSet;
///
/// let mut set = SampleSet::for_samples(100, 16)?;
/// set.add(7, [1, 2, 3])?;
/// set.add(8, [60_000, 2, 3])?;
///
/// let centres = [[0.0; 3], [0.9, 0.0, 0.0]];
/// let near = |centre| set.ball(centre, 0.1, &mut vec![]).map(|listed| listed.tags.to_vec());
/// let found = std::thread::scope(|threads| {
///     let asked = centres.map(|centre| threads.spawn(move || near(centre)));
///     asked.map(|thread| thread.join().unwrap())
/// });
/// assert_eq!(found, [Ok(vec![7]), Ok(vec![8])]);
/// # Ok::<(), hubeltxa::Refusal>(())
/// ```
#[derive(Clone, PartialEq, Eq)]
pub struct SampleSet {
    samples: Vec<u32>,
    octants: Vec<u32>,
}

impl SampleSet {
    /// The most samples that a set can hold.
    ///
    /// ```
    /// use hubeltxa::SampleSet;
    ///
    /// assert_eq!(SampleSet::for_samples(1_000_000, 16)?.capacity(), SampleSet::MOST_SAMPLES);
    /// # Ok::<(), hubeltxa::Refusal>(())
    /// ```
    pub const MOST_SAMPLES: usize = numbers::MOST_SAMPLES;

    /// As many octants for each sample are always enough (proved).
    ///
    /// ```
    /// use hubeltxa::SampleSet;
    ///
    /// let set = SampleSet::new(512, 512 * SampleSet::OCTANTS_PER_SAMPLE, 16)?;
    /// assert_eq!(set, SampleSet::for_samples(512, 16)?);
    /// # Ok::<(), hubeltxa::Refusal>(())
    /// ```
    pub const OCTANTS_PER_SAMPLE: usize = numbers::OCTANTS_A_SAMPLE;

    /// An empty set with room for so many samples and so many octants, and this bucket size.
    ///
    /// Rows that no set can use are not made: the set has at most [`MOST_SAMPLES`](SampleSet::MOST_SAMPLES) sample rows,
    /// and [`OCTANTS_PER_SAMPLE`](SampleSet::OCTANTS_PER_SAMPLE) times as many octant rows.
    /// [`capacity`](SampleSet::capacity) says how many samples there is room for. How many octants a set needs depends
    /// on its colours; [`for_samples`](SampleSet::for_samples) makes enough for any, and
    /// [`reserve`](SampleSet::reserve) makes more later.
    ///
    /// # Errors
    /// [`Refusal::Bucket`] (3) if the bucket size is not from 1 to [`MOST_BUCKET`](numbers::MOST_BUCKET).
    ///
    /// ```
    /// use hubeltxa::{numbers::MOST_BUCKET, Refusal, SampleSet};
    ///
    /// let set = SampleSet::new(512, 1_489, 16)?;
    /// assert_eq!((set.len(), set.capacity(), set.octant_capacity()), (0, 512, 1_489));
    /// assert_eq!(SampleSet::new(1_000_000, 100, 16)?.capacity(), SampleSet::MOST_SAMPLES);
    /// assert_eq!(SampleSet::new(512, 1_489, MOST_BUCKET + 1), Err(Refusal::Bucket));
    /// # Ok::<(), Refusal>(())
    /// ```
    pub fn new(sample_rows: usize, octant_rows: usize, bucket: u32) -> Result<Self, Refusal> {
        let mut set = SampleSet { samples: vec![0; lent::sample_words(0)], octants: vec![0; lent::octant_words(0)] };
        set.reserve(sample_rows, octant_rows);
        set.clear(bucket)?;
        Ok(set)
    }

    /// An empty set with room for so many samples of any colours, [`MOST_SAMPLES`](SampleSet::MOST_SAMPLES) at most:
    /// with these rows it never gives [`NoOctants`](Refusal::NoOctants). That takes
    /// [`OCTANTS_PER_SAMPLE`](SampleSet::OCTANTS_PER_SAMPLE) octants for each, many times the words of the sample's own
    /// row; a set of usual colours with a bucket size of 16 needs far fewer: see [`new`](SampleSet::new).
    ///
    /// # Errors
    /// [`Refusal::Bucket`] (3) if the bucket size is not from 1 to [`MOST_BUCKET`](numbers::MOST_BUCKET).
    ///
    /// ```
    /// use hubeltxa::SampleSet;
    ///
    /// let set = SampleSet::for_samples(100, 16)?;
    /// assert_eq!((set.capacity(), set.octant_capacity()), (100, 100 * SampleSet::OCTANTS_PER_SAMPLE));
    /// # Ok::<(), hubeltxa::Refusal>(())
    /// ```
    pub fn for_samples(samples: usize, bucket: u32) -> Result<Self, Refusal> {
        Self::new(samples, samples.saturating_mul(Self::OCTANTS_PER_SAMPLE), bucket)
    }

    /// Makes room for so many samples and so many octants in all, with those of the set, which stays as it is. Room
    /// that there is already is never given up, and rows that no set can use are not made, as in
    /// [`new`](SampleSet::new).
    ///
    /// It is for a set that refused a sample by [`NoRow`](Refusal::NoRow) or [`NoOctants`](Refusal::NoOctants):
    /// reserve, and add it again. [`OCTANTS_PER_SAMPLE`](SampleSet::OCTANTS_PER_SAMPLE) octants for each sample are
    /// always enough. A load keeps the lines before the one that it refused, so go on with a sheet of the lines from
    /// [`line`](RefusedLoad::line) on.
    ///
    /// ```
    /// use hubeltxa::numbers::{COUNT_COLUMNS, HEADER_LENGTH, LINE_LENGTH, TITLE};
    /// use hubeltxa::{write_line, Refusal, SampleSet};
    ///
    /// let sheet_of = |lines: &[u8]| {
    ///     let header = format!("{TITLE}{:>COUNT_COLUMNS$}\n", lines.len() / LINE_LENGTH);
    ///     [header.as_bytes(), lines].concat()
    /// };
    /// let mut lines = [[0; LINE_LENGTH]; 3];
    /// for (line, (tag, grey)) in lines.iter_mut().zip([(7, 0), (8, 65_535), (9, 0)]) {
    ///     write_line(tag, [grey; 3], b"A001", line)?;
    /// }
    /// let sheet = sheet_of(&lines.concat());
    ///
    /// let mut set = SampleSet::for_samples(1, 2)?;
    /// if let Err(refused) = set.load(&sheet) {
    ///     assert_eq!((refused.refusal, refused.line()), (Refusal::NoRow, Some(1)));
    ///     let rest = &sheet[HEADER_LENGTH + LINE_LENGTH * refused.taken as usize..];
    ///     let samples = set.len() + rest.len() / LINE_LENGTH;
    ///     set.reserve(samples, samples * SampleSet::OCTANTS_PER_SAMPLE);
    ///     assert_eq!((set.capacity(), set.octant_capacity()), (3, 3 * SampleSet::OCTANTS_PER_SAMPLE));
    ///     assert_eq!(set.load(&sheet_of(rest)), Ok(2));
    /// }
    /// assert!(set.samples().map(|sample| sample.tag).eq([7, 8, 9]));
    /// # Ok::<(), Refusal>(())
    /// ```
    pub fn reserve(&mut self, samples: usize, octants: usize) {
        let samples = samples.min(Self::MOST_SAMPLES);
        let octants = octants.min(Self::OCTANTS_PER_SAMPLE * Self::MOST_SAMPLES);
        // Every word of the tables that no row of the set uses is 0, so with more zeros they are the same set's.
        lengthen(&mut self.samples, lent::sample_words(samples));
        lengthen(&mut self.octants, lent::octant_words(octants));
    }

    /// How many samples are in the set.
    ///
    /// ```
    /// let mut set = hubeltxa::SampleSet::for_samples(100, 16)?;
    /// set.add(7, [1, 2, 3])?;
    /// assert_eq!(set.len(), 1);
    /// # Ok::<(), hubeltxa::Refusal>(())
    /// ```
    pub fn len(&self) -> usize {
        numbers::sample_count(&self.samples)
    }

    /// Whether no sample is in the set.
    ///
    /// ```
    /// assert!(hubeltxa::SampleSet::for_samples(100, 16)?.is_empty());
    /// # Ok::<(), hubeltxa::Refusal>(())
    /// ```
    pub fn is_empty(&self) -> bool {
        self.len() == 0
    }

    /// The bucket size: an octant is split if it holds more samples than this and its side is over 1.
    ///
    /// ```
    /// assert_eq!(hubeltxa::SampleSet::for_samples(100, 16)?.bucket(), 16);
    /// # Ok::<(), hubeltxa::Refusal>(())
    /// ```
    pub fn bucket(&self) -> u32 {
        numbers::bucket(&self.samples)
    }

    /// How many samples there is room for, with those that are in the set; [`reserve`](SampleSet::reserve) makes more.
    ///
    /// ```
    /// assert_eq!(hubeltxa::SampleSet::for_samples(100, 16)?.capacity(), 100);
    /// # Ok::<(), hubeltxa::Refusal>(())
    /// ```
    pub fn capacity(&self) -> usize {
        (self.samples.len() - numbers::SAMPLE_HEADER) / numbers::SAMPLE_ROW
    }

    /// How many octants the set's tree has; 0 if the set is empty.
    ///
    /// ```
    /// let mut set = hubeltxa::SampleSet::for_samples(100, 1)?;
    /// set.add(7, [0; 3])?;
    /// assert_eq!(set.octant_count(), 1);
    /// set.add(8, [65_535; 3])?;
    /// assert_eq!(set.octant_count(), 3); // the root is split
    /// # Ok::<(), hubeltxa::Refusal>(())
    /// ```
    pub fn octant_count(&self) -> usize {
        numbers::octant_count(&self.octants)
    }

    /// How many octants there is room for, with those of the set; [`reserve`](SampleSet::reserve) makes more.
    ///
    /// ```
    /// assert_eq!(hubeltxa::SampleSet::new(100, 300, 16)?.octant_capacity(), 300);
    /// # Ok::<(), hubeltxa::Refusal>(())
    /// ```
    pub fn octant_capacity(&self) -> usize {
        (self.octants.len() - numbers::OCTANT_HEADER) / numbers::OCTANT_ROW
    }

    /// The words of the sample table; [`numbers`](crate::numbers#tables) says what they are.
    ///
    /// ```
    /// use hubeltxa::{lent, SampleSet};
    ///
    /// let mut set = SampleSet::new(2, 1, 16)?;
    /// set.add(7, [1, 2, 3])?;
    /// assert_eq!(set.sample_words().len(), lent::sample_words(2));
    /// assert!(lent::check(set.sample_words(), set.octant_words()));
    /// # Ok::<(), hubeltxa::Refusal>(())
    /// ```
    pub fn sample_words(&self) -> &[u32] {
        &self.samples
    }

    /// The words of the octant table; [`numbers`](crate::numbers#tables) says what they are.
    ///
    /// ```
    /// use hubeltxa::{lent, SampleSet};
    ///
    /// let mut set = SampleSet::new(2, 1, 16)?;
    /// set.add(7, [1, 2, 3])?;
    /// assert_eq!(set.octant_words().len(), lent::octant_words(1));
    /// assert!(lent::check(set.sample_words(), set.octant_words()));
    /// # Ok::<(), hubeltxa::Refusal>(())
    /// ```
    pub fn octant_words(&self) -> &[u32] {
        &self.octants
    }

    /// The samples as they came in.
    ///
    /// ```
    /// let mut set = hubeltxa::SampleSet::for_samples(100, 1)?;
    /// set.add(7, [65_535; 3])?;
    /// set.add(8, [0; 3])?;
    /// assert!(set.samples().map(|sample| sample.tag).eq([7, 8]));
    /// # Ok::<(), hubeltxa::Refusal>(())
    /// ```
    pub fn samples(&self) -> impl ExactSizeIterator<Item = Sample> + '_ {
        (0..self.len()).map(|row| self.sample(row))
    }

    /// The samples in the octree's order, in which queries list them.
    ///
    /// ```
    /// let mut set = hubeltxa::SampleSet::for_samples(100, 1)?;
    /// set.add(7, [65_535; 3])?;
    /// set.add(8, [0; 3])?;
    /// assert!(set.in_order().map(|sample| sample.tag).eq([8, 7]));
    /// # Ok::<(), hubeltxa::Refusal>(())
    /// ```
    pub fn in_order(&self) -> impl Iterator<Item = Sample> + '_ {
        // From the root's first row, each row says which follows. An empty set has no root.
        let first = (!self.is_empty()).then(|| numbers::octant_first(&self.octants, 0));
        let rows = std::iter::successors(first, |&row| Some(numbers::sample_next(&self.samples, row)));
        rows.take(self.len()).map(|row| self.sample(row))
    }

    /// The sample in a row.
    fn sample(&self, row: usize) -> Sample {
        Sample { tag: numbers::sample_tag(&self.samples, row), codes: numbers::sample_codes(&self.samples, row) }
    }

    /// Empties the set, and gives it this bucket size.
    ///
    /// # Errors
    /// [`Refusal::Bucket`] (3) if the bucket size is not from 1 to [`MOST_BUCKET`](numbers::MOST_BUCKET); the set is as
    /// it was then.
    ///
    /// ```
    /// let mut set = hubeltxa::SampleSet::for_samples(100, 16)?;
    /// set.add(7, [1, 2, 3])?;
    /// set.clear(2)?;
    /// assert_eq!((set.len(), set.bucket()), (0, 2));
    /// # Ok::<(), hubeltxa::Refusal>(())
    /// ```
    pub fn clear(&mut self, bucket: u32) -> Result<(), Refusal> {
        lent::clear(&mut self.samples, &mut self.octants, bucket)
    }

    /// Adds a sample at the end of the set.
    ///
    /// # Errors
    /// The first of these that is so; the set is as it was then:
    /// - [`Refusal::Code`] (4) if a code is over [`MOST_CODE`](numbers::MOST_CODE);
    /// - [`Refusal::KnownTag`] (5) if a sample of the set has the tag;
    /// - [`Refusal::NoRow`] (6) if there is no room for another sample;
    /// - [`Refusal::NoOctants`] (7) if there is not for its octants.
    ///
    /// ```
    /// use hubeltxa::{numbers::MOST_CODE, Refusal, SampleSet};
    ///
    /// let mut set = SampleSet::for_samples(2, 16)?;
    /// set.add(7, [1, 2, 3])?;
    /// assert_eq!(set.add(8, [1, 2, MOST_CODE + 1]), Err(Refusal::Code));
    /// assert_eq!(set.add(7, [4, 5, 6]), Err(Refusal::KnownTag));
    /// set.add(8, [4, 5, 6])?;
    /// assert_eq!(set.add(9, [4, 5, 6]), Err(Refusal::NoRow));
    /// # Ok::<(), Refusal>(())
    /// ```
    pub fn add(&mut self, tag: u32, codes: [u32; 3]) -> Result<(), Refusal> {
        lent::add(&mut self.samples, &mut self.octants, tag, codes)
    }

    /// Removes the sample with a tag. The others keep their order.
    ///
    /// # Errors
    /// [`Refusal::UnknownTag`] (8) if no sample of the set has the tag; the set is as it was then.
    ///
    /// ```
    /// use hubeltxa::{Refusal, SampleSet};
    ///
    /// let mut set = SampleSet::for_samples(100, 16)?;
    /// set.add(7, [1, 2, 3])?;
    /// set.remove(7)?;
    /// assert_eq!(set.remove(7), Err(Refusal::UnknownTag));
    /// # Ok::<(), Refusal>(())
    /// ```
    pub fn remove(&mut self, tag: u32) -> Result<(), Refusal> {
        lent::remove(&mut self.samples, &mut self.octants, tag)
    }

    /// Adds the samples of a sheet's lines, line by line, up to the first line that is refused. Gives how many lines
    /// were taken: all of them. The reel names are checked and not kept; [`name`](crate::name) finds them in the sheet.
    ///
    /// # Errors
    /// [`Refusal::Header`] (11) if the header is not good, or the sheet not as long as it says; nothing is taken
    /// then.
    ///
    /// Otherwise the first of these that is so of the first line that is refused; the lines before it stay in the set,
    /// and `taken` is how many they are:
    /// - [`Refusal::Line`] (12) if the line is not good;
    /// - [`Refusal::KnownTag`] (5) if a sample of the set, or of a line before it, has the tag;
    /// - [`Refusal::NoRow`] (6) if there is no room for another sample;
    /// - [`Refusal::NoOctants`] (7) if there is not for its octants.
    ///
    /// ```
    /// use hubeltxa::numbers::{COUNT_COLUMNS, LINE_LENGTH, TITLE};
    /// use hubeltxa::{write_line, Refusal, RefusedLoad, SampleSet};
    ///
    /// let mut lines = [[0; LINE_LENGTH]; 2];
    /// write_line(7, [0; 3], b"A001", &mut lines[0])?;
    /// write_line(8, [65_535; 3], b"A002", &mut lines[1])?;
    /// let sheet = [format!("{TITLE}{:>COUNT_COLUMNS$}\n", 2).as_bytes(), &lines.concat()].concat();
    ///
    /// let mut set = SampleSet::for_samples(100, 16)?;
    /// assert_eq!(set.load(&sheet), Ok(2));
    ///
    /// set.remove(7)?;
    /// let refused = RefusedLoad { refusal: Refusal::KnownTag, taken: 1 }; // 7 is taken again, and 8 is in the set
    /// assert_eq!(set.load(&sheet), Err(refused));
    /// # Ok::<(), Refusal>(())
    /// ```
    pub fn load(&mut self, sheet: &[u8]) -> Result<u32, RefusedLoad> {
        lent::load(&mut self.samples, &mut self.octants, sheet)
    }

    /// Lists the samples in a ball. The tags are written from the listing's first word on; the words after them stay.
    ///
    /// Centre and radius are taken as codes, by the rule of [`codes`](crate::codes). A sample is in the ball if d² <
    /// r²: d² is the sum of the three squared differences between its codes and the centre's, r the radius as a code.
    ///
    /// # Errors
    /// [`Refusal::OutOfRange`] (9) if a channel of the centre or the radius is out of range.
    ///
    /// ```
    /// use hubeltxa::{Listed, Refusal, SampleSet};
    ///
    /// let mut set = SampleSet::for_samples(100, 2)?;
    /// for (tag, grey) in [(7, 0), (8, 65_535), (9, 0)] {
    ///     set.add(tag, [grey; 3])?;
    /// }
    ///
    /// let mut listing = vec![];
    /// let black = set.ball([0.0; 3], 0.001, &mut listing)?;
    /// assert_eq!(black, Listed { tags: &[7, 9], entered: 2, measured: 2 });
    /// let all = set.ball([0.0; 3], 1.999, &mut listing)?;
    /// assert_eq!(all, Listed { tags: &[7, 9, 8], entered: 1, measured: 0 });
    /// assert_eq!(set.ball([0.0; 3], 2.5, &mut listing), Err(Refusal::OutOfRange));
    /// # Ok::<(), Refusal>(())
    /// ```
    pub fn ball<'a>(&self, centre: [f32; 3], radius: f32, listing: &'a mut Vec<u32>) -> Result<Listed<'a>, Refusal> {
        lent::ball(&self.samples, &self.octants, centre, radius, self.lengthened(listing))
    }

    /// Lists the samples in a box. The tags are written from the listing's first word on; the words after them stay.
    ///
    /// The low and the high colour are taken as codes, by the rule of [`codes`](crate::codes). A sample is in the box
    /// if low <= code <= high in all three channels.
    ///
    /// # Errors
    /// [`Refusal::OutOfRange`] (9) if a channel of either colour is out of range, or low is above high in one, as
    /// codes.
    ///
    /// ```
    /// use hubeltxa::{Refusal, SampleSet};
    ///
    /// let mut set = SampleSet::for_samples(100, 2)?;
    /// for (tag, grey) in [(7, 0), (8, 65_535), (9, 0)] {
    ///     set.add(tag, [grey; 3])?;
    /// }
    ///
    /// let mut listing = vec![];
    /// assert_eq!(set.box_([0.25; 3], [0.999_999; 3], &mut listing)?.tags, [8]);
    /// assert!(set.box_([0.25; 3], [0.75; 3], &mut listing)?.tags.is_empty());
    /// assert_eq!(set.box_([0.75; 3], [0.25; 3], &mut listing), Err(Refusal::OutOfRange));
    /// # Ok::<(), Refusal>(())
    /// ```
    pub fn box_<'a>(&self, low: [f32; 3], high: [f32; 3], listing: &'a mut Vec<u32>) -> Result<Listed<'a>, Refusal> {
        lent::box_(&self.samples, &self.octants, low, high, self.lengthened(listing))
    }

    /// Finds the sample that is nearest to a centre, of those in the ball of this radius, or none if the ball holds
    /// none: the least d² < r², as [`ball`](SampleSet::ball) has them, and the first in the order of the samples if
    /// several have it.
    ///
    /// # Errors
    /// [`Refusal::OutOfRange`] (9) if a channel of the centre or the radius is out of range.
    ///
    /// ```
    /// use hubeltxa::{numbers::SCALE, Nearest, Refusal, SampleSet};
    ///
    /// let mut set = SampleSet::for_samples(100, 2)?;
    /// for (tag, grey) in [(7, 0), (8, 65_535), (9, 0)] {
    ///     set.add(tag, [grey; 3])?;
    /// }
    ///
    /// let dark = [3.0 / SCALE; 3]; // code 3 in each channel
    /// assert_eq!(set.nearest(dark, 0.001)?, Some(Nearest { tag: 7, distance: 27 })); // 9 is as near, and after it
    /// assert_eq!(set.nearest([0.5; 3], 0.001)?, None);
    /// assert_eq!(set.nearest([0.5; 3], 2.5), Err(Refusal::OutOfRange));
    /// # Ok::<(), Refusal>(())
    /// ```
    pub fn nearest(&self, centre: [f32; 3], radius: f32) -> Result<Option<Nearest>, Refusal> {
        lent::nearest(&self.samples, &self.octants, centre, radius)
    }

    /// A listing that has a word for each sample at least, so that a query holds all and is one pass.
    fn lengthened<'a>(&self, listing: &'a mut Vec<u32>) -> &'a mut [u32] {
        lengthen(listing, self.len());
        listing
    }
}

/// Zeros after the words, if there are fewer words than that.
fn lengthen(words: &mut Vec<u32>, length: usize) {
    words.resize(words.len().max(length), 0);
}

/// How much is in the set, and room for how much: of the tables themselves there can be hundreds of thousands of words.
impl Debug for SampleSet {
    fn fmt(&self, f: &mut Formatter<'_>) -> fmt::Result {
        f.debug_struct("SampleSet")
            .field("len", &self.len())
            .field("capacity", &self.capacity())
            .field("octant_count", &self.octant_count())
            .field("octant_capacity", &self.octant_capacity())
            .field("bucket", &self.bucket())
            .finish_non_exhaustive()
    }
}
