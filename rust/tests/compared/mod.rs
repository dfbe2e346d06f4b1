//! Calls on tables, compared with the straight scan one by one, and counted: those that change them here, queries in
//! `query`.

#![allow(dead_code)]

pub mod check;
pub mod query;

use crate::lent::Lent;
use crate::numbers::*;
use crate::sets::*;
use crate::straight_scan::{self, Bin, Call, Gesture, Sample};
use hubeltxa::{lent, raw, Refusal, RefusedLoad};
use std::ops::Range;

/// What a call answers: its number, and how many lines were taken (0 but of a load).
pub type Answer = (u32, u32);

/// Two tables, and the set that the straight scan has in them, or the number of the first question of 1 and 2
/// that they answer with no.
#[derive(Clone)]
pub struct Tables {
    pub samples: Vec<u32>,
    pub octants: Vec<u32>,
    pub set: Result<Bin, u32>,
}

impl Tables {
    /// The tables of a set.
    pub fn of(bin: Bin) -> Self {
        let (samples, octants) = bin.tables();
        Tables { samples, octants, set: Ok(bin) }
    }

    /// Any words.
    pub fn of_words(samples: &[u32], octants: &[u32]) -> Self {
        let short = too_short(samples.len(), octants.len());
        let set = straight_scan::bin_of(samples, octants).ok_or(if short { 1 } else { 2 });
        Tables { samples: samples.to_vec(), octants: octants.to_vec(), set }
    }

    /// The tables of the same set with so many rows.
    pub fn with_rows(&self, sample_rows: usize, octant_rows: usize) -> Self {
        let (sample_words, octant_words) = (sample_words(sample_rows), octant_words(octant_rows));
        Tables::of(Bin { sample_words, octant_words, ..self.set.clone().unwrap() })
    }

    /// What the straight scan answers; the tables become those that it leaves.
    fn scan(&mut self, call: &Call) -> Answer {
        if let Call::Clear(bucket) = call {
            return match straight_scan::start(self.samples.len(), self.octants.len(), *bucket) {
                Ok(bin) => {
                    *self = Tables::of(bin);
                    (0, 0)
                }
                Err(number) => (number, 0),
            };
        }
        let bin = match &mut self.set {
            Ok(bin) => bin,
            Err(number) => return (*number, 0),
        };
        let answer = bin.call(call);
        if answer.number == 0 || answer.taken > 0 {
            (self.samples, self.octants) = bin.tables();
        }
        (answer.number, answer.taken)
    }
}

/// Each of the sets with each bucket size, in tables just long enough and in longer ones.
pub fn each(sets: Vec<Vec<Sample>>) -> impl Iterator<Item = Tables> {
    let sized = |samples: Vec<Sample>| BUCKETS.map(|bucket| exact(&samples, bucket));
    sets.into_iter().flat_map(sized).flat_map(|bin| [with_a_row_more(&bin), bin]).map(Tables::of)
}

pub fn samples_of(tables: &Tables) -> Vec<Sample> {
    tables.set.as_ref().unwrap().samples.clone()
}

/// The C function on these tables, with a sheet on guarded bytes, and a word for the lines taken that holds something
/// else and has neighbours.
pub fn through_c(samples: &mut [u32], octants: &mut [u32], call: &Call) -> Answer {
    const HELD: u32 = 0xA5A5_A5A5;
    let mut words = [HELD; 3];
    let mut text = Lent::new(if let Call::Load(sheet) = call { sheet } else { &[] });
    let number = {
        let (s, s_len, o, o_len) = (samples.as_mut_ptr(), samples.len(), octants.as_mut_ptr(), octants.len());
        let t = text.within();
        unsafe {
            match call {
                Call::Clear(bucket) => raw::hbx_clear(s, s_len, o, o_len, *bucket),
                Call::Add(tag, [red, green, blue]) => raw::hbx_add(s, s_len, o, o_len, *tag, *red, *green, *blue),
                Call::Remove(tag) => raw::hbx_remove(s, s_len, o, o_len, *tag),
                Call::Load(_) => raw::hbx_load(s, s_len, o, o_len, t.as_ptr(), t.len(), &mut words[1]),
                Call::Pick(..) => unreachable!(),
            }
        }
    };
    assert_eq!([words[0], words[2]], [HELD; 2], "a word beside the lines taken is written");
    let taken = if let Call::Load(sheet) = call {
        assert!(text.left() == Some(sheet), "the sheet or what is beside it is changed");
        words[1]
    } else {
        0
    };
    (number, taken)
}

/// The number of what the wrapper gives: 0 where it accepts.
pub fn number_of<T>(result: Result<T, Refusal>) -> u32 {
    result.err().map_or(0, u32::from)
}

/// The answer that the wrapper gives of a load.
pub fn loaded(result: Result<u32, RefusedLoad>) -> Answer {
    match result {
        Ok(taken) => (0, taken),
        Err(RefusedLoad { refusal, taken }) => (refusal.number(), taken),
    }
}

pub fn through_wrapper(s: &mut [u32], o: &mut [u32], call: &Call) -> Answer {
    let plain = |result: Result<(), Refusal>| (number_of(result), 0);
    match call {
        Call::Clear(bucket) => plain(lent::clear(s, o, *bucket)),
        Call::Add(tag, codes) => plain(lent::add(s, o, *tag, *codes)),
        Call::Remove(tag) => plain(lent::remove(s, o, *tag)),
        Call::Load(sheet) => loaded(lent::load(s, o, sheet)),
        Call::Pick(..) => unreachable!(),
    }
}

/// The C function, on guarded words. Gives the answer and both tables as left.
fn library(tables: &Tables, call: &Call) -> (Answer, Vec<u32>, Vec<u32>) {
    let (mut samples, mut octants) = (Lent::new(&tables.samples), Lent::new(&tables.octants));
    let answer = through_c(samples.within(), octants.within(), call);
    let words = |lent: &mut Lent<u32>| lent.left().expect("words beside the tables are written").to_vec();
    (answer, words(&mut samples), words(&mut octants))
}

fn wrapper(tables: &Tables, call: &Call) -> (Answer, Vec<u32>, Vec<u32>) {
    let (mut samples, mut octants) = (tables.samples.clone(), tables.octants.clone());
    let answer = through_wrapper(&mut samples, &mut octants, call);
    (answer, samples, octants)
}

/// The calls, and the numbers that each can give. Queries on tables that are not sound are counted apart.
const CALLS: [(&str, &[usize]); 10] = [
    ("clear", &[0, 1, 3]),
    ("add", &[0, 1, 2, 4, 5, 6, 7]),
    ("remove", &[0, 1, 2, 8]),
    ("load", &[0, 1, 2, 5, 6, 7, 11, 12]),
    ("nearest", &[0, 1, 9]),
    ("ball", &[0, 1, 9, 13]),
    ("box", &[0, 1, 9, 13]),
    ("ball, not sound", &[0, 9, 13]),
    ("box, not sound", &[0, 9, 13]),
    ("nearest, not sound", &[0, 9]),
];

/// The places of calls that are counted together.
pub const CHANGES: Range<usize> = 0..4;
pub const ALL_SEVEN: Range<usize> = 0..7;
pub const NEAREST: Range<usize> = 4..5;
pub const LISTINGS: Range<usize> = 5..7;
pub const LISTINGS_NOT_SOUND: Range<usize> = 7..9;
pub const NEAREST_NOT_SOUND: Range<usize> = 9..10;

fn place(call: &Call, sound: bool) -> usize {
    let listings = if sound { LISTINGS } else { LISTINGS_NOT_SOUND };
    match call {
        Call::Clear(_) => 0,
        Call::Add(..) => 1,
        Call::Remove(_) => 2,
        Call::Load(_) => 3,
        Call::Pick(Gesture::Near { .. }, _) => if sound { NEAREST } else { NEAREST_NOT_SOUND }.start,
        Call::Pick(Gesture::Ball { .. }, _) => listings.start,
        Call::Pick(Gesture::Box { .. }, _) => listings.start + 1,
    }
}

/// A call and the tables that it is given, for a message.
fn message(tables: &Tables, call: &Call) -> String {
    let call = match call {
        Call::Load(sheet) => format!("load of \"{}\"", sheet[..sheet.len().min(400)].escape_ascii()),
        _ => format!("{call:?}"),
    };
    format!("{call} on {}", shown(&tables.samples, &tables.octants))
}

/// A call, the numbers that it can give, and how often it gave each.
pub type Row = (&'static str, &'static [usize], [usize; 14]);

/// Calls that were compared, by call and number.
#[derive(Default)]
pub struct Compared([[usize; 14]; CALLS.len()]);

impl Compared {
    /// The one comparison of calls that change tables: each goes through it. The library's and the wrapper's answers
    /// and every word of both tables are the straight scan's. The tables become those that the call leaves.
    pub fn call(&mut self, tables: &mut Tables, call: &Call) -> Answer {
        let before = tables.clone();
        let answer = tables.scan(call);
        for (whose, run) in [("library", library as fn(&_, &_) -> _), ("wrapper", wrapper)] {
            let (given, samples, octants) = run(&before, call);
            assert_eq!(given, answer, "the {whose}'s answer: {}", message(&before, call));
            assert!(samples == tables.samples, "the {whose}'s sample table: {}", message(&before, call));
            assert!(octants == tables.octants, "the {whose}'s octant table: {}", message(&before, call));
        }
        self.count(call, true, answer.0);
        answer
    }

    /// Counts a call that was compared, on tables that are sound or too short, or on others.
    pub fn count(&mut self, call: &Call, sound: bool, number: u32) {
        self.0[place(call, sound)][number as usize] += 1;
    }

    /// The same, and the tables stay as they are for the next call.
    pub fn ask(&mut self, tables: &Tables, call: &Call) -> Answer {
        self.call(&mut tables.clone(), call)
    }

    /// A load of a sheet on tables that stay.
    pub fn load(&mut self, tables: &Tables, sheet: Vec<u8>) -> Answer {
        self.ask(tables, &Call::Load(sheet))
    }

    /// Each call, the numbers that it can give, and how often it gave each.
    pub fn rows(&self) -> impl Iterator<Item = Row> + '_ {
        CALLS.iter().zip(self.0).map(|(&(name, numbers), counts)| (name, numbers, counts))
    }

    /// Prints how many calls were compared.
    pub fn print(&self, what: &str) {
        println!("{what}: {} calls", self.0.iter().flatten().sum::<usize>());
        for (name, numbers, counts) in self.rows() {
            let seen = numbers.iter().filter(|&&number| counts[number] > 0);
            let each: Vec<String> = seen.map(|&number| format!("{number}: {}", counts[number])).collect();
            if !each.is_empty() {
                println!("  {name:<19}{:>9}   by number {}", counts.iter().sum::<usize>(), each.join(", "));
            }
        }
    }

    /// The same, where every number was seen of each of these calls that can give it.
    pub fn print_all_seen(&self, what: &str, calls: impl IntoIterator<Item = usize>) {
        self.print_all_seen_but(&[], what, calls);
    }

    /// The same, but for these numbers, which none of the calls gave.
    pub fn print_all_seen_but(&self, never: &[usize], what: &str, calls: impl IntoIterator<Item = usize>) {
        self.print(what);
        for call in calls {
            let (name, numbers) = CALLS[call];
            for &number in numbers {
                let seen = self.0[call][number] > 0;
                assert!(seen != never.contains(&number), "{what}: {name} gave {number}: {seen}");
            }
        }
    }
}
