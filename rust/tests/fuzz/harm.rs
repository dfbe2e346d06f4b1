//! Damage done to tables between calls.

use crate::compared::Tables;
use crate::damage::{self, any_words, Both};
use crate::days::Words;
use crate::numbers::*;
use crate::random::*;
use crate::sets::exact;
use crate::straight_scan::Bin;

type See<'a> = &'a mut dyn FnMut(&[u32], &[u32]);

/// A kind of damage to a set's tables, which shows many pairs.
type Kind = fn(&Bin, &mut u64, See);

const KINDS: [Kind; 10] = [
    |set, _, mut see| damage::words_changed(set, 1, &mut see),
    |set, _, mut see| damage::zeros_broken(set, &mut see),
    |set, _, mut see| damage::tables_cut(set, &mut see),
    |set, _, mut see| damage::counts_changed(set, &mut see),
    |set, _, mut see| damage::rows_swapped(set, &mut see),
    |set, _, mut see| damage::children_swapped(set, &mut see),
    |set, state, mut see| damage::equal_tags(set, state, &mut see),
    |set, _, mut see| damage::codes_past_the_end(&set.samples, &mut see),
    |set, _, mut see| damage::rows_left(set, &mut see),
    |set, _, mut see| damage::mixed(&[set.clone(), exact(&set.samples, 1 + set.bucket % 2)], 1, &mut see),
];

/// One of the pairs that a kind of damage shows, each as likely; none where it shows none.
fn one_shown(kind: Kind, set: &Bin, state: &mut u64) -> Option<Words> {
    let (mut picks, mut shown, mut kept) = (random(state), 0, None);
    kind(set, state, &mut |samples, octants| {
        shown += 1;
        if below(shown, &mut picks) == 0 {
            kept = Some((samples.to_vec(), octants.to_vec()));
        }
    });
    kept
}

/// Whether all pairs of a kind are soon gone through, and `mixed` has rows for the set.
fn small(set: &Bin) -> bool {
    set.samples.len() <= 40 && set.octant_words < 800
}

/// One of the two tables cut, or with words after it: zeros, which leave sound tables sound, or any.
fn other_length((mut samples, mut octants): Words, state: &mut u64) -> Words {
    let table = if below(2, state) == 0 { &mut samples } else { &mut octants };
    let more = 1 + below(30, state);
    match below(4, state) {
        0 => table.truncate(below(table.len() + 1, state)),
        1 => table.truncate(below(SAMPLE_HEADER + 1, state)),
        2 => table.extend(vec![0; more]),
        _ => table.extend(any_words(more, state)),
    }
    (samples, octants)
}

/// A few edits at once, anywhere in both tables.
fn edited((samples, octants): Words, state: &mut u64) -> Words {
    let both = Both { words: [&samples[..], &octants[..]].concat(), samples: samples.len() };
    let mut left = (samples, octants);
    if !both.words.is_empty() {
        damage::edited(both, state, &mut |samples, octants| left = (samples.to_vec(), octants.to_vec()));
    }
    left
}

/// Words that point everywhere, in about as many rows.
fn pointing((samples, octants): Words, state: &mut u64) -> Words {
    let mut left = (vec![], vec![]);
    let rows = (1 + samples.len() / SAMPLE_ROW, 1 + octants.len() / OCTANT_ROW);
    // Of 2,025 combinations, one.
    damage::pointing(rows.0, rows.1, 2_025, state, &mut |samples, octants| left = (samples.to_vec(), octants.to_vec()));
    left
}

/// The tables with damage of some kind; now and then they are sound after all.
pub fn harmed(tables: &Tables, state: &mut u64) -> Tables {
    let words = (tables.samples.clone(), tables.octants.clone());
    let kind = any_of(&KINDS, state);
    let (samples, octants) = match (&tables.set, below(8, state)) {
        (Ok(set), 0..=3) if small(set) => one_shown(kind, set, state).unwrap_or(words),
        (_, 4) => other_length(words, state),
        (_, 5) => (any_words(words.0.len(), state), any_words(words.1.len(), state)),
        (_, 6) => pointing(words, state),
        _ => edited(words, state),
    };
    Tables::of_words(&samples, &octants)
}
