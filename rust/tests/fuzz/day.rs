//! A round: a random day of all twelve calls on one pair of tables, with damage between them.

use super::harm::harmed;
use super::inputs::*;
use super::seen::Seen;
use super::step::Step;
use crate::calls::{any_call, any_set, pool, SIZES};
use crate::compared::query::listing;
use crate::compared::Tables;
use crate::damage::any_words;
use crate::days::{any_lengths, Lengths};
use crate::numbers::*;
use crate::random::*;
use crate::sets::*;
use crate::straight_scan::{self, Bin, Call, Codes, Gesture};

pub struct Day {
    state: u64,
    steps: usize,
    tables: Tables,
    /// Tables to go back to after damage, unless the tables were too short from the first.
    whole: Option<Tables>,
    colours: Vec<Codes>,
    most_lines: usize,
    growing: bool,
    /// A query that was answered, and how many tags it listed.
    listed: Option<(Gesture, usize)>,
}

/// Tables of these lengths with any words, or with zeros.
fn any_tables(lengths: Lengths, state: &mut u64) -> Tables {
    let words = |length: usize, zeros: bool, state: &mut u64| match zeros {
        true => vec![0; length],
        false => any_words(length, state),
    };
    let zeros = below(4, state) == 0;
    Tables::of_words(&words(lengths.0, zeros, state), &words(lengths.1, zeros, state))
}

/// As many samples as there can be, or nearly, in tables with a few words more.
fn large_set(colours: &[Codes], state: &mut u64) -> Tables {
    let samples = tagged((0..MOST_SAMPLES - below(3, state)).map(|_| any_of(colours, state)));
    let set = exact(&samples, any_of(&[16, MOST_BUCKET - 1, MOST_BUCKET], state));
    let set = Bin { sample_words: sample_words(MOST_SAMPLES), ..set };
    Tables::of(longer(&set, below(9, state), below(100, state)))
}

impl Day {
    pub fn new(seed: u64) -> Self {
        let mut state = seed;
        let (kind, bucket) = (below(64, &mut state), any_of(&SIZES, &mut state));
        let colours = pool(if kind == 0 { MOST_SAMPLES } else { 300 }, &mut state);
        let (tables, most_lines) = match kind {
            0 => (large_set(&colours, &mut state), 3),
            1..=12 => (any_set(below(60, &mut state), &colours, 20, 60, &mut state), 8),
            13..=22 => (Tables::of(exact(&any_small_set(&mut state), bucket)), 4),
            _ => {
                let (lengths, most_lines) = any_lengths(kind, &colours, bucket, &mut state);
                (any_tables(lengths, &mut state), most_lines)
            }
        };
        let steps = match (kind, &tables.set) {
            (0, _) | (_, Err(1)) => 5 + below(20, &mut state),
            _ => 20 + below(150, &mut state),
        };
        let empty = straight_scan::start(tables.samples.len(), tables.octants.len(), bucket);
        let whole = empty.ok().map(Tables::of);
        Day { state, steps, tables, whole, colours, most_lines, growing: true, listed: None }
    }

    /// The set that the tables have, or had last.
    fn set(&self) -> Bin {
        let whole = self.whole.as_ref().map(|tables| tables.set.as_ref().unwrap());
        self.tables.set.as_ref().ok().or(whole).cloned().unwrap_or_else(|| exact(&[], 1))
    }

    /// Of some steps, one does damage first; damaged tables are damaged further, or put back as they were.
    fn alter(&mut self) {
        let state = &mut self.state;
        match (&self.tables.set, below(24, state)) {
            (Ok(_), 0) => {
                self.whole = Some(self.tables.clone());
                self.tables = harmed(&self.tables, state);
            }
            (Err(_), 0..=1) if self.whole.is_some() => self.tables = harmed(&self.tables, state),
            (Err(_), 2..=4) => self.tables = self.whole.clone().unwrap_or_else(|| self.tables.clone()),
            _ => {}
        }
    }

    /// A query; of those that listed some, one in three is asked again with a listing that just holds all, or is one
    /// word short.
    fn any_query(&mut self) -> Step {
        let again = self.listed.take().filter(|&(_, listed)| listed > 0);
        match (again, below(6, &mut self.state)) {
            (Some((query, listed)), short @ 0..=1) => Step::Query(query, listing(listed - short)),
            _ => {
                let (query, lent) = any_query(&self.tables.samples, &mut self.state);
                Step::Query(query, lent)
            }
        }
    }

    fn any_step(&mut self) -> Step {
        self.growing ^= below(40, &mut self.state) == 0;
        let (set, colours, lines, state) = (self.set(), &self.colours, self.most_lines, &mut self.state);
        match below(32, state) {
            0..=1 => any_colour(state),
            2..=3 => any_line(&set, state),
            4..=5 => any_lookup(&set, colours, lines, state),
            6..=8 => Step::Check,
            9 => any_load(&set, colours, lines, state),
            10..=11 if self.tables.set.is_err() => Step::Change(Call::Clear(any_of(&SIZES, state))),
            10..=19 => self.any_query(),
            _ => Step::Change(any_call(&set, colours, lines, self.growing, state)),
        }
    }

    /// Goes through the day. Each call is noted, with the tables that it is lent, before it is made and compared.
    pub fn run(&mut self, seen: &mut Seen, mut note: impl FnMut(&Tables, &Step)) {
        for _ in 0..self.steps {
            self.alter();
            let step = self.any_step();
            note(&self.tables, &step);
            let listed = step.compare(&mut self.tables, seen);
            if let Step::Query(query, _) = step {
                self.listed = Some((query, listed));
            }
        }
    }
}

fn any_small_set(state: &mut u64) -> Vec<straight_scan::Sample> {
    let sets = small_sets();
    sets[below(sets.len(), state)].clone()
}
