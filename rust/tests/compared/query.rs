//! Queries, compared with the straight scan one by one.

use super::{Compared, Tables};
use crate::lent::Lent;
use crate::numbers::*;
use crate::sets::{exact, shown};
use crate::straight_scan::{Answer, Bin, Call, Gesture};
use hubeltxa::{lent as wrapper, raw, Listed, Nearest, Refusal};

/// A listing of so many words, no two equal.
pub fn listing(length: usize) -> Vec<Tag> {
    (0..length as Tag).map(|i| 0xC0DE_0000 + i).collect()
}

/// An answer for a message: the reports, what is found, and the first words of the listing.
pub fn brief(answer: &Answer) -> String {
    let Answer { number, taken, listed, entered, measured, found, tag, d2, listing } = answer;
    let words = &listing[..listing.len().min(40)];
    format!(
        "number {number}, {taken} taken, {listed} listed, {entered} entered, {measured} measured, \
         found {found}, tag {tag}, distance {d2}, listing {words:?}"
    )
}

/// The C function on these tables, with a listing on guarded words, and words for what is reported that hold something
/// else and have neighbours.
pub fn through_c(samples: &[u32], octants: &[u32], query: &Gesture, lent: &[Tag]) -> Answer {
    const HELD: u32 = 0xA5A5_A5A5;
    const HELD_TAG: Tag = 0xA5A5_A5A5;
    const HELD_TWICE: u64 = 0xA5A5_A5A5_A5A5_A5A5;
    let (mut words, mut tags, mut distances) = ([HELD; 7], [HELD_TAG; 3], [HELD_TWICE; 3]);
    let mut listing = Lent::new(lent);
    let number = {
        let [_, one, _, two, _, three, _] = &mut words;
        let l = listing.within();
        let (s, s_len, o, o_len) = (samples.as_ptr(), samples.len(), octants.as_ptr(), octants.len());
        let (l, l_len) = (l.as_mut_ptr(), l.len());
        unsafe {
            match *query {
                Gesture::Ball { centre: [r, g, b], radius } => {
                    raw::hbx_ball(s, s_len, o, o_len, r, g, b, radius, l, l_len, one, two, three)
                }
                Gesture::Box { low: [r, g, b], high: [x, y, z] } => {
                    raw::hbx_box(s, s_len, o, o_len, r, g, b, x, y, z, l, l_len, one, two, three)
                }
                Gesture::Near { centre: [r, g, b], radius } => {
                    raw::hbx_near(s, s_len, o, o_len, r, g, b, radius, one, &mut tags[1], &mut distances[1])
                }
            }
        }
    };
    let [before, one, between, two, again, three, after] = words;
    assert_eq!([before, between, again, after], [HELD; 4], "a word beside the reports is written");
    assert_eq!([tags[0], tags[2]], [HELD_TAG; 2], "a word beside the tag is written");
    assert_eq!([distances[0], distances[2]], [HELD_TWICE; 2], "a word beside the distance is written");
    let listing = listing.left().expect("words beside the listing are written").to_vec();
    if let Gesture::Near { .. } = query {
        assert!(one <= 1, "found is {one}");
        return Answer { number, found: one == 1, tag: tags[1], d2: distances[1], listing, ..Answer::default() };
    }
    Answer { number, listed: one, entered: two, measured: three, listing, ..Answer::default() }
}

/// The answer that the wrapper gives of a ball or a box: its reports and the whole listing as left, of which the tags
/// are the first part.
pub fn listed(
    mut listing: Vec<Tag>,
    ask: impl for<'a> FnOnce(&'a mut Vec<Tag>) -> Result<Listed<'a>, Refusal>,
) -> Answer {
    let reports = ask(&mut listing)
        .map(|Listed { tags, entered, measured }| (tags.as_ptr_range(), tags.len(), entered, measured));
    match reports {
        Ok((tags, listed, entered, measured)) => {
            assert_eq!(tags, listing[..listed].as_ptr_range(), "the tags are another part than the listing's first");
            Answer { listed: listed as u32, entered, measured, listing, ..Answer::default() }
        }
        Err(refusal) => Answer { number: refusal.number(), listing, ..Answer::default() },
    }
}

/// The answer that the wrapper gives of nearest, with the listing, which it is not lent.
pub fn found(listing: Vec<Tag>, result: Result<Option<Nearest>, Refusal>) -> Answer {
    match result {
        Ok(Some(Nearest { tag, distance })) => Answer { found: true, tag, d2: distance, listing, ..Answer::default() },
        Ok(None) => Answer { listing, ..Answer::default() },
        Err(refusal) => Answer { number: refusal.number(), listing, ..Answer::default() },
    }
}

pub fn through_wrapper(samples: &[u32], octants: &[u32], query: &Gesture, lent: &[Tag]) -> Answer {
    let lent = lent.to_vec();
    match *query {
        Gesture::Ball { centre, radius } => {
            listed(lent, |listing| wrapper::ball(samples, octants, centre, radius, listing))
        }
        Gesture::Box { low, high } => listed(lent, |listing| wrapper::box_(samples, octants, low, high, listing)),
        Gesture::Near { centre, radius } => found(lent, wrapper::nearest(samples, octants, centre, radius)),
    }
}

/// The C function, on guarded words. Both tables must be left as they were.
fn library(tables: &Tables, query: &Gesture, lent: &[Tag]) -> Answer {
    let (mut samples, mut octants) = (Lent::new(&tables.samples), Lent::new(&tables.octants));
    let answer = through_c(samples.within(), octants.within(), query, lent);
    assert!(samples.left() == Some(&tables.samples), "the sample table or what is beside it is changed");
    assert!(octants.left() == Some(&tables.octants), "the octant table or what is beside it is changed");
    answer
}

/// What the straight scan answers; nothing on tables that are not sound.
fn scan(tables: &Tables, query: &Gesture, lent: &[Tag]) -> Option<Answer> {
    match &tables.set {
        Ok(set) => Some(set.pick(query, lent)),
        Err(1) => Some(Answer { number: 1, listing: lent.to_vec(), ..Answer::default() }),
        Err(_) => None,
    }
}

/// The most samples and octants that a pass may go through: what the counts say, and the rows that there are.
fn bounds(tables: &Tables) -> (usize, usize) {
    let (samples, octants) = (&tables.samples, &tables.octants);
    let lengths = Bin { sample_words: samples.len(), octant_words: octants.len(), ..exact(&[], 1) };
    (lengths.sample_rows().min(sample_count(samples)), lengths.octant_rows().min(octant_count(octants)))
}

/// Whether what is found has the tag of a row, and all is 0 where nothing is.
fn safe_find(tables: &Tables, given: &Answer) -> bool {
    let samples = &tables.samples;
    if given.found {
        (0..sample_rows(samples.len())).any(|row| tag_of(samples, row) == Some(given.tag))
    } else {
        (given.tag, given.d2) == (0, 0)
    }
}

/// What is promised on tables that are not sound: 9 exactly for a query that is not good, else 0 or 13, and 13 only for
/// a listing that is shorter than the samples, of nearest never. Nothing written where a number is given, nothing past
/// what is listed elsewhere, and no more listed, entered and measured than the counts say and there are rows.
fn safe(tables: &Tables, query: &Gesture, lent: &[Tag], given: &Answer) -> bool {
    let bad = exact(&[], 1).pick(query, &[]).number == 9;
    let (samples, octants) = bounds(tables);
    let (listed, entered, measured) = (given.listed as usize, given.entered as usize, given.measured as usize);
    let nearest = matches!(query, Gesture::Near { .. });
    match given.number {
        0 if nearest => !bad && safe_find(tables, given),
        0 => {
            let within = listed <= lent.len() && listed <= samples && entered <= octants && measured <= samples;
            !bad && within && given.listing[listed..] == lent[listed..]
        }
        number => {
            let refused = Answer { number, listing: lent.to_vec(), ..Answer::default() };
            let why = if bad { number == 9 } else { number == 13 && !nearest && lent.len() < samples };
            why && *given == refused
        }
    }
}

impl Compared {
    /// The one comparison of queries: each goes through it. On tables that are sound, or too short, the library's and
    /// the wrapper's answers and every word of the listing are the straight scan's; on others they are safe.
    pub fn query(&mut self, tables: &Tables, query: &Gesture, lent: &[Tag]) -> Answer {
        let message = || {
            let words = shown(&tables.samples, &tables.octants);
            format!("{query:?} with a listing of {} words on {words}", lent.len())
        };
        let given = library(tables, query, lent);
        let answer = scan(tables, query, lent);
        match &answer {
            Some(answer) => assert!(
                given == *answer,
                "the library's {}; the straight scan's {}: {}",
                brief(&given),
                brief(answer),
                message()
            ),
            None => {
                assert!(safe(tables, query, lent, &given), "the library's {} is not safe: {}", brief(&given), message())
            }
        }
        let wrapped = through_wrapper(&tables.samples, &tables.octants, query, lent);
        assert!(wrapped == given, "the wrapper's {}; the library's {}: {}", brief(&wrapped), brief(&given), message());
        self.count(&Call::Pick(*query, vec![]), answer.is_some(), given.number);
        given
    }

    /// A query with a listing that is longer than the samples; then, where it is good, with listings that are as long
    /// as the samples, and just as long as what is listed, and with shorter ones, which give 13. That all say the same
    /// is asked on tables that are not sound too, where one pass must find what two find. Nearest has no listing, and
    /// is asked once.
    pub fn query_at_lengths(&mut self, tables: &Tables, query: &Gesture) -> Answer {
        let long = self.query(tables, query, &listing(tables.samples.len()));
        if long.number != 0 || matches!(query, Gesture::Near { .. }) {
            return long;
        }
        let listed = long.listed as usize;
        for length in [bounds(tables).0, listed] {
            let given = self.query(tables, query, &listing(length));
            let reports = |answer: &Answer| (answer.number, answer.listed, answer.entered, answer.measured);
            assert_eq!(reports(&given), reports(&long), "{query:?} with a listing of {length} words");
            assert_eq!(given.listing[..listed], long.listing[..listed], "{query:?} with a listing of {length} words");
        }
        for length in [0, listed / 2, listed.saturating_sub(1)].into_iter().filter(|&length| length < listed) {
            assert_eq!(self.query(tables, query, &listing(length)).number, 13, "{query:?} with {length} words");
        }
        long
    }
}
