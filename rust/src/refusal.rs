//! Why a call was refused.

use crate::numbers::{CHANNEL_LIMIT, MOST_BUCKET, MOST_CODE, NAME_COLUMNS, RADIUS_LIMIT, SAMPLE_HEADER};
use std::error::Error;
use std::fmt::{self, Display, Formatter};

/// Why a call was refused. Each case is one of the library's numbers, which [`number`](Refusal::number) gives.
///
/// A refused call leaves tables, listings and bytes as they were; only a load that is refused at a line keeps the
/// lines before it: see [`RefusedLoad`].
///
/// The library is proved to give no number but 0 and these. A call of this crate panics on any other, which only another
/// archive than the one it is for could give.
///
/// ```
/// use hubeltxa::Refusal;
///
/// let refused = hubeltxa::codes([0.25, 0.5, 1.5]).unwrap_err();
/// assert_eq!(refused, Refusal::OutOfRange);
/// assert_eq!(refused.number(), 9);
/// println!("{refused}"); // what it means, in a sentence
/// ```
#[derive(Clone, Copy, Debug, PartialEq, Eq, Hash)]
#[non_exhaustive]
#[repr(u32)]
pub enum Refusal {
    /// A table is shorter than its header: [`SAMPLE_HEADER`], [`OCTANT_HEADER`](crate::numbers::OCTANT_HEADER). Lend
    /// longer tables.
    TooShort = 1,
    /// The tables are not sound: never cleared, written by others, or copied in part. Clear them, and add or load the
    /// samples again.
    Unsound = 2,
    /// A bucket size not from 1 to [`MOST_BUCKET`]. Give one that is.
    Bucket = 3,
    /// A code over [`MOST_CODE`]. Give codes in range, as [`codes`](crate::codes) does.
    Code = 4,
    /// A sample of the set, or of an earlier line of the sheet, has the tag. Take another tag, or remove that sample
    /// first.
    KnownTag = 5,
    /// No sample row is unused. Remove samples, or make room for more, up to
    /// [`MOST_SAMPLES`](crate::numbers::MOST_SAMPLES): [`reserve`](crate::SampleSet::reserve) in a set, a longer sample
    /// table if it is lent.
    NoRow = 6,
    /// Too few octant rows for the set with the sample. Make room for more: [`reserve`](crate::SampleSet::reserve) in a
    /// set, a longer octant table if it is lent. Or clear with a larger bucket size and load again.
    NoOctants = 7,
    /// No sample of the set has the tag. Nothing to do: it is not there.
    UnknownTag = 8,
    /// A channel or a radius out of range: see [`CHANNEL_LIMIT`] and [`RADIUS_LIMIT`]; or a box whose low is above its
    /// high in a channel, as codes. Bring the floats into range, or in order.
    OutOfRange = 9,
    /// A name that is not 1 to [`NAME_COLUMNS`] bytes from 33 to 126. Give another; none is ever cut to fit.
    Name = 10,
    /// The header of the sheet is not good, or the sheet not as long as it says. Mend the sheet; nothing was taken.
    Header = 11,
    /// The line of the sheet is not good. Mend it.
    Line = 12,
    /// Fewer than [`LINE_LENGTH`](crate::LINE_LENGTH) bytes lent for a line, or a listing shorter than all that a query
    /// lists. Lend so many bytes; lend as many words as samples, which is always enough.
    NoRoom = 13,
}

impl Refusal {
    /// Every case, by number from 1.
    ///
    /// ```
    /// use hubeltxa::Refusal;
    ///
    /// for refusal in Refusal::ALL {
    ///     println!("{:2}  {refusal}", refusal.number());
    /// }
    /// ```
    pub const ALL: &'static [Refusal] = &[
        Refusal::TooShort,
        Refusal::Unsound,
        Refusal::Bucket,
        Refusal::Code,
        Refusal::KnownTag,
        Refusal::NoRow,
        Refusal::NoOctants,
        Refusal::UnknownTag,
        Refusal::OutOfRange,
        Refusal::Name,
        Refusal::Header,
        Refusal::Line,
        Refusal::NoRoom,
    ];

    /// The number that the library gives for this, from 1 to 13.
    ///
    /// ```
    /// assert_eq!(hubeltxa::Refusal::NoRoom.number(), 13);
    /// ```
    pub const fn number(self) -> u32 {
        self as u32
    }

    /// The refusal that a number is.
    fn of_number(number: u32) -> Refusal {
        let case = Refusal::ALL.iter().find(|refusal| refusal.number() == number);
        *case.unwrap_or_else(|| panic!("the linked libhubeltxa.a gave {number}, which is no number of a refusal"))
    }
}

impl Display for Refusal {
    fn fmt(&self, f: &mut Formatter<'_>) -> fmt::Result {
        match self {
            Refusal::TooShort => {
                write!(f, "the sample table has under {SAMPLE_HEADER} words, or the octant table none")
            }
            Refusal::Unsound => write!(f, "the tables are not sound"),
            Refusal::Bucket => write!(f, "the bucket size is not from 1 to {MOST_BUCKET}"),
            Refusal::Code => write!(f, "a code is over {},{:03}", MOST_CODE / 1_000, MOST_CODE % 1_000),
            Refusal::KnownTag => write!(f, "a sample of the set, or of an earlier line of the sheet, has the tag"),
            Refusal::NoRow => write!(f, "no sample row is unused"),
            Refusal::NoOctants => write!(f, "there are too few octant rows for the set with the sample"),
            Refusal::UnknownTag => write!(f, "no sample of the set has the tag"),
            Refusal::OutOfRange => write!(
                f,
                "a channel is not in 0 <= v < {CHANNEL_LIMIT}, a radius not in 0 <= v < {RADIUS_LIMIT}, \
                 or a box's low above its high"
            ),
            Refusal::Name => write!(f, "the name is not 1 to {NAME_COLUMNS} bytes from 33 to 126"),
            Refusal::Header => write!(f, "the sheet's header is not good, or the sheet not as long as it says"),
            Refusal::Line => write!(f, "the line is not good"),
            Refusal::NoRoom => write!(f, "fewer bytes are lent than a line has, or fewer words than a query lists"),
        }
    }
}

impl Error for Refusal {}

impl From<Refusal> for u32 {
    fn from(refusal: Refusal) -> u32 {
        refusal.number()
    }
}

/// What a refused load gives: why, and how many lines were taken before it.
///
/// If any were taken, the same sheet again is refused at line 0, whose tag is known by then: go on with a sheet of
/// the lines from [`line`](RefusedLoad::line) on, or clear the set and load anew.
///
/// ```
/// use hubeltxa::numbers::{COUNT_COLUMNS, LINE_LENGTH, TITLE};
/// use hubeltxa::{write_line, Refusal, RefusedLoad, SampleSet};
///
/// let mut line = [0; LINE_LENGTH];
/// write_line(7, [0; 3], b"A001", &mut line)?;
/// let header = format!("{TITLE}{:>COUNT_COLUMNS$}\n", 2);
/// let sheet = [header.as_bytes(), &line, &line].concat(); // the same line twice
///
/// let mut set = SampleSet::for_samples(100, 16)?;
/// let refused = set.load(&sheet).unwrap_err();
/// assert_eq!(refused, RefusedLoad { refusal: Refusal::KnownTag, taken: 1 });
/// assert_eq!(refused.line(), Some(1));
/// assert_eq!(set.len(), 1); // line 0 stays
/// # Ok::<(), Refusal>(())
/// ```
#[derive(Clone, Copy, Debug, PartialEq, Eq, Hash)]
pub struct RefusedLoad {
    /// Why the load ended.
    pub refusal: Refusal,
    /// How many lines were taken; they stay in the set.
    pub taken: u32,
}

impl RefusedLoad {
    /// The line that was refused, counted from 0; none if the tables or the header were, and no line was looked at.
    ///
    /// ```
    /// let mut set = hubeltxa::SampleSet::for_samples(100, 16)?;
    /// assert_eq!(set.load(b"no sheet").unwrap_err().line(), None);
    /// # Ok::<(), hubeltxa::Refusal>(())
    /// ```
    pub fn line(&self) -> Option<u32> {
        let at_a_line = matches!(self.refusal, Refusal::Line | Refusal::KnownTag | Refusal::NoRow | Refusal::NoOctants);
        at_a_line.then_some(self.taken)
    }
}

impl Display for RefusedLoad {
    fn fmt(&self, f: &mut Formatter<'_>) -> fmt::Result {
        match self.line() {
            Some(line) => write!(f, "line {line}, counted from 0: {}", self.refusal),
            None => self.refusal.fmt(f),
        }
    }
}

impl Error for RefusedLoad {}

/// What a call gave, if its number says that it accepted.
pub(crate) fn unless_refused<T>(number: u32, given: T) -> Result<T, Refusal> {
    match number {
        0 => Ok(given),
        _ => Err(Refusal::of_number(number)),
    }
}

#[cfg(test)]
mod tests {
    use super::*;
    use std::collections::HashSet;

    /// What the numbers mean is said in README; these are its words, in short.
    #[test]
    fn each_number_is_a_case_of_its_own() {
        let said = [
            "the octant table none",
            "not sound",
            "bucket size",
            "a code",
            "has the tag",
            "sample row",
            "octant rows",
            "no sample of the set",
            "a radius",
            "the name",
            "header",
            "the line",
            "than a query lists",
        ];
        assert_eq!(Refusal::ALL.len(), said.len());
        for (number, words) in (1..).zip(said) {
            let refusal = Refusal::of_number(number);
            assert_eq!((refusal.number(), u32::from(refusal)), (number, number));
            assert!(refusal.to_string().contains(words), "{number}: {refusal}");
            assert_eq!(unless_refused(number, ()), Err(refusal));
        }
        let texts: HashSet<String> = Refusal::ALL.iter().map(|refusal| refusal.to_string()).collect();
        assert_eq!(texts.len(), said.len());
        assert_eq!(unless_refused(0, 7), Ok(7));
    }

    #[test]
    fn no_other_number_is_a_case() {
        for number in [0, 14, 255, 256, u32::MAX] {
            assert!(std::panic::catch_unwind(|| Refusal::of_number(number)).is_err(), "{number}");
        }
    }

    /// A load that is refused at a line says which; one that looked at none does not.
    #[test]
    fn only_a_refused_line_is_named() {
        for &refusal in Refusal::ALL {
            let refused = RefusedLoad { refusal, taken: 3 };
            let at_a_line = [5, 6, 7, 12].contains(&refusal.number());
            assert_eq!(refused.line(), at_a_line.then_some(3));
            assert_eq!(refused.to_string().starts_with("line 3, counted from 0: "), at_a_line);
            assert!(refused.to_string().ends_with(&refusal.to_string()));
        }
    }
}
