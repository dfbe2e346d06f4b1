//! Tables damaged in each way that the tests know, shown to a function one pair after the other.
//!
//! Where a comment says so, no pair is sound; elsewhere one may be, as when two equal words change places.

#![allow(dead_code)]

use crate::numbers::*;
use crate::random::*;
use crate::sets::*;
use crate::straight_scan::{Bin, Sample};

/// Both tables as one list of words, that one place can name any of them.
#[derive(Clone)]
pub struct Both {
    pub words: Vec<u32>,
    pub samples: usize,
}

impl Both {
    pub fn of(bin: &Bin) -> Self {
        let (samples, octants) = bin.tables();
        Both { words: [&samples[..], &octants[..]].concat(), samples: samples.len() }
    }

    pub fn show<R>(&self, see: impl FnOnce(&[u32], &[u32]) -> R) -> R {
        let (samples, octants) = self.words.split_at(self.samples);
        see(samples, octants)
    }

    /// Shows them with another word in one place.
    pub fn with<R>(&mut self, at: usize, word: u32, see: impl FnOnce(&[u32], &[u32]) -> R) -> R {
        let held = std::mem::replace(&mut self.words[at], word);
        let seen = self.show(see);
        self.words[at] = held;
        seen
    }

    /// Shows them with the words of two parts exchanged.
    fn swapped(&mut self, one: usize, other: usize, size: usize, see: &mut impl FnMut(&[u32], &[u32])) {
        let swap = |words: &mut [u32]| (0..size).for_each(|i| words.swap(one + i, other + i));
        swap(&mut self.words);
        self.show(see);
        swap(&mut self.words);
    }

    /// Where each row of a table starts.
    fn sample_rows(&self) -> Vec<usize> {
        (0..self.show(|samples, _| sample_count(samples))).map(sample_words).collect()
    }

    fn octant_rows(&self) -> Vec<usize> {
        (0..self.show(|_, octants| octant_count(octants))).map(|row| self.samples + octant_words(row)).collect()
    }
}

/// Every pair of two different ones.
fn pairs(of: &[usize]) -> Vec<(usize, usize)> {
    of.iter().enumerate().flat_map(|(i, &x)| of[..i].iter().map(move |&y| (y, x))).collect()
}

/// Each of the usual wrong words in every step-th place: one up and one down, 0, the greatest, the first
/// number that is no code, the highest bit turned.
pub fn words_changed(bin: &Bin, step: usize, see: &mut impl FnMut(&[u32], &[u32])) {
    let mut both = Both::of(bin);
    for at in (0..both.words.len()).step_by(step) {
        let word = both.words[at];
        let (up, down) = (word.wrapping_add(1), word.wrapping_sub(1));
        for wrong in [up, down, 0, u32::MAX, MOST_CODE + 1, word ^ 1 << 31] {
            if wrong != word {
                both.with(at, wrong, &mut *see);
            }
        }
    }
}

/// A word that is not 0 in each place where 0 belongs: past the rows in use, and past the last row. Never
/// sound.
pub fn zeros_broken(bin: &Bin, see: &mut impl FnMut(&[u32], &[u32])) {
    let mut both = Both::of(&longer(bin, 2 * SAMPLE_ROW + 3, 2 * OCTANT_ROW + 7));
    let tails = (bin.sample_words..both.samples).chain(both.samples + bin.octant_words..both.words.len());
    for at in tails {
        [1, 1 << 16, u32::MAX].iter().for_each(|&word| both.with(at, word, &mut *see));
    }
}

/// Either table cut at every length.
pub fn tables_cut(bin: &Bin, see: &mut impl FnMut(&[u32], &[u32])) {
    let (samples, octants) = longer(bin, 3, 3).tables();
    (0..samples.len()).for_each(|n| see(&samples[..n], &octants));
    (0..octants.len()).for_each(|n| see(&samples, &octants[..n]));
}

/// Other counts of samples and of octants. Never sound.
pub fn counts_changed(bin: &Bin, see: &mut impl FnMut(&[u32], &[u32])) {
    let mut both = Both::of(&longer(bin, SAMPLE_ROW, OCTANT_ROW));
    let most = MOST_SAMPLES as u32;
    for at in [SAMPLE_COUNT, both.samples + OCTANT_COUNT] {
        let count = both.words[at];
        let others = (0..count + 4).chain([most - 1, most, most + 1, 1 << 16, 1 << 31, u32::MAX - 1, u32::MAX]);
        others.filter(|&wrong| wrong != count).for_each(|wrong| both.with(at, wrong, &mut *see));
    }
}

/// Every two rows exchanged (of octants, every third pair); of sample rows also without their next words, and
/// the next words alone.
pub fn rows_swapped(bin: &Bin, see: &mut impl FnMut(&[u32], &[u32])) {
    let mut both = Both::of(bin);
    for (one, other) in pairs(&both.sample_rows()) {
        both.swapped(one, other, SAMPLE_ROW, see);
        both.swapped(one, other, NEXT, see);
        both.swapped(one + NEXT, other + NEXT, 1, see);
    }
    for (one, other) in pairs(&both.octant_rows()).into_iter().step_by(3) {
        both.swapped(one, other, OCTANT_ROW, see);
    }
}

/// Every two words of an octant row exchanged.
pub fn children_swapped(bin: &Bin, see: &mut impl FnMut(&[u32], &[u32])) {
    let mut both = Both::of(bin);
    for row in both.octant_rows() {
        let words: Vec<usize> = (row..row + OCTANT_ROW).collect();
        pairs(&words).into_iter().for_each(|(one, other)| both.swapped(one, other, 1, see));
    }
}

/// Tables that are right but for two samples with one tag. Never sound.
pub fn equal_tags(bin: &Bin, state: &mut u64, see: &mut impl FnMut(&[u32], &[u32])) {
    let n = bin.samples.len();
    if n < 2 {
        return;
    }
    let some = (0..10).map(|_| (below(n, state), below(n, state)));
    for (i, j) in [(0, 1), (0, n - 1), (n - 2, n - 1)].into_iter().chain(some).filter(|(i, j)| i != j) {
        let mut same = bin.clone();
        same.samples[i].tag = same.samples[j].tag;
        Both::of(&same).show(&mut *see);
    }
}

/// Codes past the end in tables that are otherwise right: the root is not split, so no octant asks them. Never
/// sound.
pub fn codes_past_the_end(samples: &[Sample], see: &mut impl FnMut(&[u32], &[u32])) {
    for (i, channel) in (0..samples.len()).flat_map(|i| [0, 1, 2].map(|h| (i, h))) {
        for code in [MOST_CODE + 1, MOST_CODE + 2, 1 << 17, 1 << 31, u32::MAX] {
            let mut bin = exact(samples, MOST_BUCKET);
            bin.samples[i].codes[channel] = code;
            Both::of(&bin).show(&mut *see);
        }
    }
}

/// The tables without the last sample but with its row left where it was, or a word of it. Never sound.
pub fn rows_left(bin: &Bin, see: &mut impl FnMut(&[u32], &[u32])) {
    let Some(n) = bin.samples.len().checked_sub(1) else { return };
    let before = Both::of(bin).words;
    let mut both = Both::of(&Bin { samples: bin.samples[..n].to_vec(), ..bin.clone() });
    let row = sample_words(n)..sample_words(n + 1);
    for at in row.clone().filter(|&at| before[at] != 0) {
        both.with(at, before[at], &mut *see);
    }
    both.words[row.clone()].copy_from_slice(&before[row]);
    both.show(see);
}

/// A few edits at once: words set, moved, copied and turned, rows copied.
pub fn edited(mut both: Both, state: &mut u64, see: &mut impl FnMut(&[u32], &[u32])) {
    let n = both.words.len();
    for _ in 0..1 + below(3, state) {
        let (at, from) = (below(n, state), below(n, state));
        match below(6, state) {
            0 => both.words[at] = random(state) as u32,
            1 => both.words[at] = below(40, state) as u32,
            2 => both.words[at] = both.words[from],
            3 => both.words.swap(at, from),
            4 => both.words[at] ^= 1 << below(32, state),
            _ => {
                let size = any_of(&[2, SAMPLE_ROW, OCTANT_ROW], state).min(n - at.max(from));
                both.words.copy_within(from..from + size, at);
            }
        }
    }
    both.show(see);
}

/// The sample table of one set with the octant table of another: other bucket sizes, other sets, the same
/// samples in another sequence. Every step-th pair.
pub fn mixed(bins: &[Bin], step: usize, see: &mut impl FnMut(&[u32], &[u32])) {
    let same_length =
        |bin: &Bin| Bin { sample_words: sample_words(64), octant_words: octant_words(700), ..bin.clone() };
    let tables: Vec<_> = bins.iter().map(|bin| same_length(bin).tables()).collect();
    for (i, (samples, _)) in tables.iter().enumerate() {
        tables.iter().skip(i % step).step_by(step).for_each(|(_, octants)| see(samples, octants));
    }
    for bin in bins {
        let mut turned = bin.clone();
        turned.samples.reverse();
        let ((samples, octants), (samples_turned, octants_turned)) = (bin.tables(), turned.tables());
        see(&samples, &octants_turned);
        see(&samples_turned, &octants);
    }
}

/// Small numbers, ends of ranges and random numbers for words.
pub fn any_words(length: usize, state: &mut u64) -> Vec<u32> {
    const ENDS: [u32; 10] =
        [0, 1, 2, 16, MOST_BUCKET, MOST_BUCKET + 1, MOST_SAMPLES as u32, MOST_CODE, MOST_CODE + 1, u32::MAX];
    let word = |state: &mut u64| match random(state) >> 62 {
        0 => random(state) as u32,
        1 => any_of(&ENDS, state),
        _ => below(4, state) as u32,
    };
    (0..length).map(|_| word(state)).collect()
}

/// Each kind of damage, to the small sets with each of these bucket sizes; of the words, every step-th.
pub fn small(buckets: &[u32], step: usize, state: &mut u64, see: &mut impl FnMut(&[u32], &[u32])) {
    let bins = small_bins(buckets);
    for bin in bins.iter().filter(|bin| bin.octant_words < 800) {
        words_changed(&with_a_row_more(bin), step, see);
        rows_swapped(bin, see);
        children_swapped(bin, see);
        tables_cut(bin, see);
    }
    for bin in &bins {
        zeros_broken(bin, see);
        counts_changed(bin, see);
        equal_tags(bin, state, see);
        rows_left(bin, see);
    }
    small_sets().iter().for_each(|samples| codes_past_the_end(samples, see));
    mixed(&bins, 5 * step, see);
}

fn small_bins(buckets: &[u32]) -> Vec<Bin> {
    let sets = small_sets();
    sets.iter().flat_map(|samples| buckets.iter().map(|&bucket| exact(samples, bucket))).collect()
}

/// Damage to tables of some hundreds of samples to as many as there can be; of the words, every step-th or so.
pub fn large(step: usize, see: &mut impl FnMut(&[u32], &[u32])) {
    words_changed(&exact(&tagged(scattered(300, 23)), 2), step, see);
    words_changed(&exact(&tagged(clustered(1_000, 5, 300, 24)), 16), 2 * step + 1, see);
    words_changed(&exact(&tagged(scattered(MOST_SAMPLES, 25)), 16), 9 * step + 2, see);
    words_changed(&exact(&tagged([[MOST_CODE; 3]; MOST_SAMPLES]), MOST_BUCKET), 20 * step + 1, see);
    equal_tags(&exact(&tagged(scattered(MOST_SAMPLES, 26)), 16), &mut 27, see);
}

/// So many times: a few edits at once to a small set's tables, and then any words, fewer than so many of each table.
pub fn edits(
    buckets: &[u32],
    tries: usize,
    lengths: (usize, usize),
    state: &mut u64,
    see: &mut impl FnMut(&[u32], &[u32]),
) {
    let bins = small_bins(buckets);
    let tables: Vec<Both> = bins.iter().map(|bin| Both::of(&longer(bin, SAMPLE_ROW, OCTANT_ROW))).collect();
    for _ in 0..tries {
        edited(tables[below(tables.len(), state)].clone(), state, see);
        let (n, m) = (below(lengths.0, state), below(lengths.1, state));
        see(&any_words(n, state), &any_words(m, state));
    }
}

/// Where a word of a row can point, given the row, the rows that there are and a number at random.
type Pointing = fn(usize, usize, usize) -> usize;

/// To any row, to the row itself, to the next or the one before, to the first or the last, to some row after it, past
/// the rows, and as far as a word goes.
const POINTING: [Pointing; 9] = [
    |_, rows, any| any % rows,
    |row, _, _| row,
    |row, rows, _| (row + 1) % rows,
    |row, rows, _| (row + rows - 1) % rows,
    |_, _, _| 0,
    |_, rows, _| rows - 1,
    |row, rows, any| (row + 1 + any % 9).min(rows - 1),
    |_, rows, any| rows + any % 3,
    |_, _, _| u32::MAX as usize,
];

/// Counts of samples: all, none, one, as many as a word can say, any.
const COUNTING: [fn(usize, usize) -> usize; 5] =
    [|rows, _| rows, |_, _| 0, |_, _| 1, |_, _| u32::MAX as usize, |rows, any| any % (rows + 3)];

/// Tables of so many rows in which next words, child words and counts point everywhere, one pair for every combination
/// of ways to point; of all combinations, every step-th. Codes are in range, but for a few.
pub fn pointing(
    sample_rows: usize,
    octant_rows: usize,
    step: usize,
    state: &mut u64,
    see: &mut impl FnMut(&[u32], &[u32]),
) {
    let ways = POINTING.len() * POINTING.len() * COUNTING.len() * COUNTING.len();
    for way in (0..ways).skip(below(step, state)).step_by(step) {
        let (next, child) = (POINTING[way % 9], POINTING[way / 9 % 9]);
        let (count, header) = (COUNTING[way / 81 % 5], COUNTING[way / 405]);
        let mut any = || below(1 << 40, state);
        let mut samples = sample_header(header(sample_rows, any()) as u32, BUCKETS[any() % 4]).to_vec();
        for row in 0..sample_rows {
            let code = |any: usize| match any % 50 {
                0 => any as u32,
                _ => (any % CODE_COUNT) as u32,
            };
            let (tag, codes) = (any() as Tag, [0; 3].map(|_| code(any())));
            samples.extend(sample_row(tag, codes, next(row, sample_rows, any()) as u32));
        }
        let mut octants = octant_header(header(octant_rows, any()) as u32).to_vec();
        for row in 0..octant_rows {
            let [first, last] = [0; 2].map(|_| next(any() % sample_rows, sample_rows, any()) as u32);
            let (held, children) =
                (count(sample_rows, any()) as u32, [0; 8].map(|_| child(row, octant_rows, any()) as u32));
            octants.extend(octant_row(first, last, held, children));
        }
        see(&samples, &octants);
    }
}
