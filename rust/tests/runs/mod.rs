//! Queries of a kind, asked of many tables: of large sets, between changes, and of tables that are not sound.

#![allow(dead_code)]

use crate::compared::query::listing;
use crate::compared::{each, samples_of, Compared, Tables};
use crate::damage;
use crate::numbers::*;
use crate::random::*;
use crate::sets::*;
use crate::straight_scan::{self, Call, Gesture};

/// Makes a query at random, aimed at a sample table.
pub type AnyQuery = fn(&[u32], &mut u64) -> Gesture;

/// Queries on large sets.
pub fn large(compared: &mut Compared, any: AnyQuery, queries: usize, mut state: u64) {
    let state = &mut state;
    for tables in each(large_sets()) {
        let rows = samples_of(&tables).len();
        for _ in 0..queries {
            let query = any(&tables.samples, state);
            compared.query(&tables, &query, &listing(any_of(&[rows, rows + 9, rows / 2, 10], state)));
        }
        compared.query_at_lengths(&tables, &any(&tables.samples, state));
    }
}

/// Queries between adds and removes, on the tables that these leave.
pub fn sequences(compared: &mut Compared, any: AnyQuery, runs: usize, calls: usize, mut state: u64) {
    let state = &mut state;
    for _ in 0..runs {
        let (rows, octants) = (1 + below(60, state), 1 + below(200, state));
        let words = any_words_of(rows, octants, state);
        let mut tables = Tables::of(straight_scan::start(words.0, words.1, any_of(&BUCKETS, state)).unwrap());
        let width = any_of(&[2, 300, CODE_COUNT], state);
        for _ in 0..calls {
            let tag = below(80, state) as Tag;
            let codes = [0; 3].map(|_: u32| below(width, state) as u32);
            let call = if below(4, state) == 0 { Call::Remove(tag) } else { Call::Add(tag, codes) };
            compared.call(&mut tables, &call);
            let query = any(&tables.samples, state);
            compared.query(&tables, &query, &listing(below(rows + 2, state)));
        }
    }
}

/// Sees damaged tables, or one pair in so many: a few queries are safe on them, and right where they are sound after
/// all.
pub fn seeing<'a>(
    compared: &'a mut Compared,
    any: AnyQuery,
    one_in: usize,
    queries: usize,
    state: &'a mut u64,
) -> impl FnMut(&[u32], &[u32]) + 'a {
    move |samples, octants| {
        if below(one_in, state) > 0 {
            return;
        }
        let tables = Tables::of_words(samples, octants);
        for _ in 0..queries {
            compared.query_at_lengths(&tables, &any(samples, state));
        }
    }
}

/// Each kind of damage, to sets with each bucket size; of the tables, one pair in so many.
pub fn damaged(compared: &mut Compared, any: AnyQuery, one_in: usize, queries: usize, mut state: u64) {
    let mut tags = random(&mut state);
    damage::small(&BUCKETS, 1, &mut tags, &mut seeing(compared, any, one_in, queries, &mut state));
}

/// A few edits at once, and any words.
pub fn edited(compared: &mut Compared, any: AnyQuery, tries: usize, mut state: u64) {
    let mut edits = random(&mut state);
    damage::edits(&BUCKETS, tries, (80, 120), &mut edits, &mut seeing(compared, any, 1, 1, &mut state));
}

/// Words that point everywhere: a pass that trusted them would go round for ever, or through the same octants again
/// and again.
pub fn pointed(compared: &mut Compared, any: AnyQuery, step: usize, mut state: u64) {
    let mut words = random(&mut state);
    for (rows, octants) in [(1, 1), (3, 2), (7, 40), (60, 20), (200, 300)] {
        damage::pointing(rows, octants, step, &mut words, &mut seeing(compared, any, 1, 4, &mut state));
    }
}
