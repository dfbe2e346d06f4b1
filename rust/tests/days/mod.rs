//! Days of the straight scan: any words at first, a first clear, and calls of all seven kinds at random.

#![allow(dead_code)]

use crate::asked::*;
use crate::calls::any_call;
use crate::compared::query::listing;
use crate::numbers::*;
use crate::random::*;
use crate::sets::*;
use crate::straight_scan::{self, Answer, Bin, Call, Codes};

/// The lengths of the two tables, in words.
pub type Lengths = (usize, usize);

/// The words of both tables.
pub type Words = (Vec<u32>, Vec<u32>);

/// What the straight scan has: its set from the first accepted clear on, and the words that the tables must hold.
pub struct Scanned {
    set: Result<Bin, Lengths>,
    pub expected: Words,
}

impl Scanned {
    /// Before the first call: any words.
    pub fn new(lengths: Lengths, state: &mut u64) -> Self {
        let mut any = |length: usize| -> Vec<u32> { (0..length).map(|_| random(state) as u32).collect() };
        Scanned { set: Err(lengths), expected: (any(lengths.0), any(lengths.1)) }
    }

    /// The set; none where no clear was accepted.
    pub fn set(&self) -> Bin {
        self.set.clone().unwrap_or_else(|_| exact(&[], 1))
    }

    /// What the straight scan answers. A call that is no clear finds its set, or tables that are too short.
    pub fn call(&mut self, call: &Call) -> Answer {
        let number = |number| Answer { number, ..Answer::default() };
        let answer = match (&mut self.set, call) {
            (Ok(set), _) => set.call(call),
            (Err(lengths), Call::Clear(bucket)) => match straight_scan::start(lengths.0, lengths.1, *bucket) {
                Ok(set) => {
                    self.set = Ok(set);
                    number(0)
                }
                Err(refused) => number(refused),
            },
            (Err(lengths), _) => {
                assert!(straight_scan::start(lengths.0, lengths.1, 1).is_err());
                let listing = if let Call::Pick(_, lent) = call { lent.clone() } else { vec![] };
                Answer { listing, ..number(1) }
            }
        };
        if let (Ok(set), false) = (&self.set, matches!(call, Call::Pick(..))) {
            self.expected = set.tables();
        }
        answer
    }
}

/// A query of one of the three kinds, of sixteen one that is refused by 9, with a listing that holds all, or may not.
pub fn any_pick(samples: &[u32], rows: usize, state: &mut u64) -> Call {
    let query = match below(3, state) {
        0 => any_ball(samples, state),
        1 => any_box(samples, state),
        _ => any_nearest(samples, state),
    };
    let length = match below(3, state) {
        0 => below(rows + 2, state),
        1 => below(4, state),
        _ => rows + below(2, state),
    };
    Call::Pick(seldom_bad(query, state), listing(length))
}

/// A call of the seven, of which nearly half are queries, for a set that grows or gets smaller.
pub fn any_of_seven(scanned: &Scanned, colours: &[Codes], most_lines: usize, growing: bool, state: &mut u64) -> Call {
    let set = scanned.set();
    match below(7, state) {
        0..=2 => any_pick(&scanned.expected.0, set.samples.len(), state),
        _ => any_call(&set, colours, most_lines, growing, state),
    }
}

/// Lengths of each kind, and how many lines a sheet has at most: rows of both that suffice, sample rows that run out,
/// octant rows that run out, both of a set just so, lengths that hold one row or none, and lengths that are too short.
pub fn any_lengths(kind: usize, colours: &[Codes], bucket: u32, state: &mut u64) -> (Lengths, usize) {
    match kind % 6 {
        0 => (any_words_of(200, OCTANTS_A_SAMPLE * 200, state), 20),
        1 => (any_words_of(1 + below(25, state), 500, state), 6),
        2 => (any_words_of(100, 1 + below(40, state), state), 6),
        3 => {
            let samples = tagged((0..1 + below(60, state)).map(|_| any_of(colours, state)));
            let bin = exact(&samples, bucket);
            ((bin.sample_words, bin.octant_words), 8)
        }
        4 => {
            let short = (SAMPLE_HEADER + below(2 * SAMPLE_ROW, state), OCTANT_HEADER + below(2 * OCTANT_ROW, state));
            (short, 2)
        }
        _ => {
            let long = (below(60, state), below(200, state));
            let cut = [(below(SAMPLE_HEADER, state), long.1), (long.0, 0), (below(SAMPLE_HEADER, state), 0)];
            (any_of(&cut, state), 3)
        }
    }
}
