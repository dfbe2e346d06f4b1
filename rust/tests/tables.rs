//! Tables checked and cleared, compared with the straight scan call by call.
//!
//! `cargo test --release` takes a few seconds. The ignored tests change every word of larger tables and
//! go through more sets: `make test-long`, or `cargo test --release --test tables -- --ignored`.

#[path = "../../oracle/straight_scan.rs"]
#[allow(dead_code)]
#[rustfmt::skip]
mod straight_scan;

mod compared;
mod damage;
mod lent;
mod numbers;
mod random;
mod sets;

use damage::{any_words, Both};
use hubeltxa::raw;
use lent::Lent;
use numbers::*;
use random::*;
use sets::*;
use straight_scan::{Bin, Call, Sample};

/// The one comparison of checks: every pair of tables goes through it. Gives the answer, for tests that
/// look at it.
fn check(samples: &[u32], octants: &[u32]) -> bool {
    let expected = straight_scan::sound(samples, octants);
    let given = compared::check::through_c(samples, octants);
    assert_eq!(given, expected, "the library on {}", shown(samples, octants));
    assert_eq!(hubeltxa::lent::check(samples, octants), expected, "the wrapper on {}", shown(samples, octants));
    expected
}

/// The one comparison of clears: the number, and every word of both tables.
fn clear(samples: &[u32], octants: &[u32], bucket: u32) -> u32 {
    let (number, tables) = match straight_scan::start(samples.len(), octants.len(), bucket) {
        Ok(bin) => (0, bin.tables()),
        Err(number) => (number, (samples.to_vec(), octants.to_vec())),
    };
    let (mut s, mut o) = (Lent::new(samples), Lent::new(octants));
    let given = {
        let (s, o) = (s.within(), o.within());
        unsafe { raw::hbx_clear(s.as_mut_ptr(), s.len(), o.as_mut_ptr(), o.len(), bucket) }
    };
    assert_eq!(given, number, "the library, bucket size {bucket}, on {}", shown(samples, octants));
    let left = s.left() == Some(&tables.0) && o.left() == Some(&tables.1);
    assert!(left, "the library's words, bucket size {bucket}, on {}", shown(samples, octants));
    let (mut s, mut o) = (samples.to_vec(), octants.to_vec());
    let given = hubeltxa::lent::clear(&mut s, &mut o, bucket).err().map_or(0, u32::from);
    assert_eq!((given, (s, o)), (number, tables), "the wrapper, bucket size {bucket}");
    number
}

/// Checks a set's tables, which are sound.
fn check_sound(bin: &Bin) {
    let (samples, octants) = bin.tables();
    assert!(check(&samples, &octants), "{} samples, bucket size {}", bin.samples.len(), bin.bucket);
}

/// Each of the sets with each bucket size, in tables just long enough.
fn each(sets: Vec<Vec<Sample>>) -> impl Iterator<Item = Bin> {
    sets.into_iter().flat_map(|samples| BUCKETS.map(|bucket| exact(&samples, bucket)))
}

/// Sees damaged tables: they are checked, and are sound or not.
fn look(samples: &[u32], octants: &[u32]) {
    check(samples, octants);
}

/// Sees damaged tables that are never sound.
fn refuse(samples: &[u32], octants: &[u32]) {
    assert!(!check(samples, octants), "{}", shown(samples, octants));
}

fn check_lengths(bin: &Bin) {
    check_sound(bin);
    let row = (SAMPLE_ROW, OCTANT_ROW);
    for (samples, octants) in [(1, 0), (0, 1), (row.0 - 1, row.1 - 1), row, (64, 64)] {
        check_sound(&longer(bin, samples, octants));
    }
    check_sound(&with_a_row_more(bin));
    let (samples, octants) = bin.tables();
    assert!(!check(&samples, &octants[..octants.len() - 1]));
    assert!(!check(&samples[..samples.len() - 1], &octants));
}

#[test]
fn sound_tables() {
    each(small_sets()).for_each(|bin| check_lengths(&bin));
}

#[test]
fn sound_tables_of_large_sets() {
    for bin in each(large_sets()) {
        check_sound(&bin);
        check_sound(&with_a_row_more(&bin));
        let (samples, octants) = bin.tables();
        assert!(!check(&samples, &octants[..octants.len() - 1]));
    }
    // Words for more rows than there can be: those past the most are no rows.
    let bin = exact(&tagged(scattered(MOST_SAMPLES, 31)), 16);
    let mut both = Both::of(&longer(&bin, SAMPLE_ROW, OCTANT_ROW));
    assert!(both.show(check));
    assert!(!both.with(SAMPLE_COUNT, MOST_SAMPLES as u32 + 1, check));
}

#[test]
fn longest_tables() {
    for colours in [scattered(MOST_SAMPLES, 32), close_pairs(MOST_SAMPLES, 33)] {
        for bucket in [1, 16] {
            let tables = longest(exact(&tagged(colours.clone()), bucket));
            check_sound(&tables);
            let mut both = Both::of(&tables);
            let last = both.words.len() - 1;
            assert!(!both.with(last, 1, check));
        }
    }
}

/// Every bucket size, and those past either end.
#[test]
fn bucket_sizes() {
    for samples in [small_sets()[9].clone(), tagged(scattered(300, 41)), tagged([[7; 3]; MOST_BUCKET as usize + 2])] {
        for bucket in 1..=MOST_BUCKET {
            check_sound(&exact(&samples, bucket));
        }
        let mut both = Both::of(&exact(&samples, 16));
        for bucket in (0..=300).chain([512, 1 << 16, 1 << 31, u32::MAX]) {
            both.with(BUCKET_SIZE, bucket, check);
        }
        assert!(!both.with(BUCKET_SIZE, 0, check));
        assert!(!both.with(BUCKET_SIZE, MOST_BUCKET + 1, check));
    }
    // All in the root whatever the bucket size, so that only its range counts.
    let mut both = Both::of(&exact(&tagged([[5; 3]]), 16));
    for bucket in 0..=300 {
        assert_eq!(both.with(BUCKET_SIZE, bucket, check), (1..=MOST_BUCKET).contains(&bucket));
    }
}

#[test]
fn every_word_changed() {
    for bin in each(small_sets()).filter(|bin| bin.octant_words < 1_500) {
        damage::words_changed(&with_a_row_more(&bin), 1, &mut look);
    }
}

fn change_some_words(bin: &Bin, step: usize) {
    damage::words_changed(bin, step, &mut look);
}

#[test]
fn words_of_large_sets_changed() {
    change_some_words(&exact(&tagged(scattered(300, 51)), 2), 101);
    change_some_words(&exact(&tagged(clustered(1_000, 5, 300, 52)), 16), 211);
    change_some_words(&exact(&tagged(scattered(MOST_SAMPLES, 53)), 16), 1_009);
    change_some_words(&exact(&tagged([[MOST_CODE; 3]; MOST_SAMPLES]), MOST_BUCKET), 2_003);
}

#[test]
fn zeros_broken() {
    each(small_sets()).for_each(|bin| damage::zeros_broken(&bin, &mut refuse));
}

#[test]
fn tables_cut() {
    for bin in each(small_sets()).filter(|bin| bin.sample_words + bin.octant_words < 400) {
        damage::tables_cut(&bin, &mut look);
    }
    for bin in each(small_sets()).filter(|bin| bin.samples.len() < 4 && bin.octant_words < 50) {
        let (samples, octants) = longer(&bin, SAMPLE_ROW + 1, 3).tables();
        for n in 0..=samples.len() {
            (0..=octants.len()).for_each(|m| _ = check(&samples[..n], &octants[..m]));
        }
    }
}

/// Every table of a few words, each from a few numbers: those that are too short among them.
#[test]
fn tables_of_few_words() {
    let lists = |length: u32| {
        let few = [0, 1, 2, MOST_BUCKET, MOST_BUCKET + 1, u32::MAX];
        let list = move |k: usize| (0..length).map(|i| few[k / 6_usize.pow(i) % 6]).collect::<Vec<u32>>();
        (0..6_usize.pow(length)).map(list)
    };
    let sound = |samples: &[u32], octants: &[u32]| {
        let zeros = |words: &[u32]| words.iter().all(|&word| word == 0);
        let none = !too_short(samples.len(), octants.len()) && sample_count(samples) == 0 && zeros(octants);
        none && (1..=MOST_BUCKET).contains(&samples[BUCKET_SIZE]) && zeros(&samples[SAMPLE_HEADER..])
    };
    for samples in (0..=SAMPLE_HEADER as u32 + 2).flat_map(lists) {
        for octants in (0..=OCTANT_HEADER as u32 + 1).flat_map(lists) {
            assert_eq!(check(&samples, &octants), sound(&samples, &octants));
        }
    }
}

#[test]
fn counts_changed() {
    each(small_sets()).for_each(|bin| damage::counts_changed(&bin, &mut refuse));
}

#[test]
fn rows_swapped() {
    let bins = each(small_sets()).filter(|bin| bin.octant_words < 800);
    bins.for_each(|bin| damage::rows_swapped(&bin, &mut look));
}

#[test]
fn children_swapped() {
    let bins = each(small_sets()).filter(|bin| bin.octant_words < 800);
    bins.for_each(|bin| damage::children_swapped(&bin, &mut look));
}

#[test]
fn equal_tags() {
    let mut state = 61;
    let bins = each(small_sets()).chain([exact(&tagged(scattered(MOST_SAMPLES, 62)), 16)]);
    bins.for_each(|bin| damage::equal_tags(&bin, &mut state, &mut refuse));
}

/// Tags that differ in one bit; tags in a row, from either end; and each of these with one tag given twice.
#[test]
fn tags_apart() {
    let bits: Vec<Tag> = (0..Tag::BITS).map(|k| 1 << k).chain([0]).collect();
    let inverse: Vec<Tag> = bits.iter().map(|tag| !tag).collect();
    let rows: Vec<Tag> = (0..600).collect();
    let back: Vec<Tag> = (0..600).map(|i| MOST_TAG - i).collect();
    let wide: Vec<Tag> = (0..MOST_SAMPLES as Tag).map(|i| i << 20 | i >> 6).collect();
    let steps: Vec<Tag> = (0..8).flat_map(|k| (0..8).map(move |i| i << (3 * k + 5) | 3)).collect();
    for mut tags in [bits, inverse, rows, back, wide, steps] {
        let table = |tags: &[Tag]| {
            let samples: Vec<Sample> = tags.iter().map(|&tag| Sample { tag, codes: [9; 3] }).collect();
            exact(&samples, MOST_BUCKET).tables()
        };
        tags.sort();
        tags.dedup();
        let (samples, octants) = table(&tags);
        assert!(check(&samples, &octants));
        let n = tags.len();
        for (i, j) in [(0, 1), (n / 2, n - 1), (n - 1, 0), (n / 3, n / 3 + 1)] {
            let mut twice = tags.clone();
            twice[i] = twice[j];
            let (samples, octants) = table(&twice);
            assert!(!check(&samples, &octants));
        }
    }
}

#[test]
fn codes_past_the_end() {
    small_sets().iter().for_each(|samples| damage::codes_past_the_end(samples, &mut refuse));
    check_sound(&exact(&tagged([[MOST_CODE; 3]; 2]), MOST_BUCKET));
}

#[test]
fn rows_left() {
    each(small_sets()).for_each(|bin| damage::rows_left(&bin, &mut refuse));
}

#[test]
fn tables_mixed() {
    damage::mixed(&each(small_sets()).collect::<Vec<_>>(), 5, &mut look);
}

fn random_edits(tries: usize, mut state: u64) {
    let row_more = |bin: Bin| Both::of(&longer(&bin, SAMPLE_ROW, OCTANT_ROW));
    let tables: Vec<Both> = each(small_sets()).map(row_more).collect();
    for _ in 0..tries {
        let both = tables[below(tables.len(), &mut state)].clone();
        damage::edited(both, &mut state, &mut look);
    }
}

#[test]
fn tables_edited() {
    random_edits(40_000, 71);
}

#[test]
fn random_words() {
    let mut state = 81;
    for _ in 0..200_000 {
        let (n, m) = (below(40, &mut state), below(60, &mut state));
        check(&any_words(n, &mut state), &any_words(m, &mut state));
    }
}

/// Sets as adds and removes leave them, in tables that fill up.
fn sequences(runs: usize, calls: usize, mut state: u64) {
    let state = &mut state;
    for _ in 0..runs {
        let (rows, octants) = (1 + below(60, state), 1 + below(200, state));
        let (more, further) = (below(SAMPLE_ROW + 2, state), below(OCTANT_ROW + 2, state));
        let (samples, octants) = (sample_words(rows) + more, octant_words(octants) + further);
        let mut bin = straight_scan::start(samples, octants, any_of(&BUCKETS, state)).unwrap();
        let width = any_of(&[2, 300, CODE_COUNT], state);
        for _ in 0..calls {
            let tag = below(80, state) as Tag;
            let codes = [0; 3].map(|_: u32| below(width, state) as u32);
            bin.call(&if below(4, state) == 0 { Call::Remove(tag) } else { Call::Add(tag, codes) });
            check_sound(&bin);
        }
    }
}

#[test]
fn call_sequences() {
    sequences(60, 120, 91);
}

#[test]
fn clears() {
    let mut state = 101;
    for n in 0..=24 {
        for m in 0..=26 {
            let most = MOST_BUCKET;
            for bucket in [0, 1, 2, 3, 16, most - 1, most, most + 1, most + 2, 1 << 16, 1 << 31, u32::MAX] {
                let (samples, octants) = (any_words(n, &mut state), any_words(m, &mut state));
                let number = clear(&samples, &octants, bucket);
                let (short, bad) = (too_short(n, m), !(1..=MOST_BUCKET).contains(&bucket));
                assert_eq!(number, if short { 1 } else { 3 * bad as u32 });
            }
        }
    }
    let longest = (sample_words(MOST_SAMPLES), octant_words(MOST_OCTANTS));
    for (n, m) in [longest, (sample_words(5_000), OCTANT_HEADER + 1), (SAMPLE_HEADER, octant_words(500))] {
        for bucket in [0, 1, MOST_BUCKET, MOST_BUCKET + 1] {
            clear(&any_words(n, &mut state), &any_words(m, &mut state), bucket);
        }
    }
}

/// Every bucket size, on tables that hold a set.
#[test]
fn sets_cleared() {
    for bin in each(small_sets()) {
        let (samples, octants) = longer(&bin, 3, 3).tables();
        for bucket in (0..=3).chain(MOST_BUCKET - 2..=MOST_BUCKET + 2) {
            clear(&samples, &octants, bucket);
        }
    }
    let (samples, octants) = exact(&tagged(scattered(300, 102)), 2).tables();
    (0..=300).for_each(|bucket| _ = clear(&samples, &octants, bucket));
}

/// Case h of document 01: tables that are one word too short for the tree.
#[test]
fn cases() {
    let samples = tagged([[0; 3], [MOST_CODE; 3], [0; 3]]);
    let bin = exact(&samples, 1);
    assert_eq!(bin.octant_words, 199);
    check_sound(&bin);
    let (samples, octants) = bin.tables();
    assert!(!check(&samples, &octants[..octants.len() - 1]));
}

#[test]
#[ignore = "long: every word of larger tables changed"]
fn every_word_of_larger_sets_changed() {
    change_some_words(&exact(&tagged(scattered(300, 51)), 2), 1);
    change_some_words(&exact(&tagged(clustered(300, 3, 20, 54)), 1), 1);
    change_some_words(&exact(&tagged(scattered(MOST_SAMPLES, 53)), 16), 29);
    change_some_words(&exact(&tagged(clustered(MOST_SAMPLES, 2, 12, 55)), MOST_BUCKET), 97);
}

#[test]
#[ignore = "long: many edits of tables"]
fn tables_edited_long() {
    (0..20).for_each(|seed| random_edits(200_000, 1_000 + seed));
}

#[test]
#[ignore = "long: many sequences of calls"]
fn call_sequences_long() {
    (0..20).for_each(|seed| sequences(200, 200, 2_000 + seed));
}
