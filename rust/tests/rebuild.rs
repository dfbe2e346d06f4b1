//! Tables rebuilt from the samples in the first rows, compared with the straight scan call by call.
//!
//! `hbx_rebuild` is no call of the library: it builds as add, remove and load do at their end, so that this can be
//! measured and compared. It needs `make parts` at the root of the repository first.

#[path = "../../oracle/straight_scan.rs"]
#[allow(dead_code)]
#[rustfmt::skip]
mod straight_scan;

mod lent;
mod numbers;
mod random;
mod sets;

use lent::Lent;
use numbers::*;
use random::*;
use sets::*;
use straight_scan::{Bin, Sample};

#[link(name = "rebuild", kind = "static")]
extern "C" {
    fn hbx_rebuild(
        samples: *mut u32,
        samples_len: usize,
        octants: *mut u32,
        octants_len: usize,
        bucket: u32,
        n: usize,
    ) -> u32;
}

/// The set in the first n rows by the straight scan, or the first no of 1, 3, 6, 4, 7.
fn oracle(samples: &[u32], octants: &[u32], bucket: u32, n: usize) -> Result<Bin, u32> {
    let mut bin = straight_scan::start(samples.len(), octants.len(), bucket)?;
    if n > bin.sample_rows() {
        return Err(6);
    }
    let sample = |row: usize| Sample { tag: tag_of(samples, row).unwrap(), codes: codes_of(samples, row) };
    bin.samples = (0..n).map(sample).collect();
    if bin.samples.iter().any(|sample| sample.codes.iter().any(|&code| code > MOST_CODE)) {
        return Err(4);
    }
    if bin.octants() > bin.octant_rows() {
        return Err(7);
    }
    Ok(bin)
}

/// The one comparison: the number, and every word of both tables.
fn rebuild(samples: &[u32], octants: &[u32], bucket: u32, n: usize) -> u32 {
    let (number, tables) = match oracle(samples, octants, bucket, n) {
        Ok(bin) => (0, bin.tables()),
        Err(number) => (number, (samples.to_vec(), octants.to_vec())),
    };
    let (mut s, mut o) = (Lent::new(samples), Lent::new(octants));
    let given = {
        let (s, o) = (s.within(), o.within());
        unsafe { hbx_rebuild(s.as_mut_ptr(), s.len(), o.as_mut_ptr(), o.len(), bucket, n) }
    };
    let what = || format!("{} and {} words, bucket size {bucket}, {n} rows", samples.len(), octants.len());
    assert_eq!(given, number, "the number on {}", what());
    assert!(s.left() == Some(&tables.0), "the sample table on {}", what());
    assert!(o.left() == Some(&tables.1), "the octant table on {}", what());
    number
}

/// Rebuilds a set from its rows alone, in tables that otherwise hold anything.
fn rebuild_set(bin: &Bin, state: &mut u64) -> u32 {
    let (mut samples, mut octants) = bin.tables();
    let rows = sample_words(0)..sample_words(bin.samples.len());
    let kept = |at: usize| rows.contains(&at) && (at - rows.start) % SAMPLE_ROW != NEXT;
    samples.iter_mut().enumerate().filter(|(at, _)| !kept(*at)).for_each(|(_, word)| *word = random(state) as u32);
    octants.iter_mut().for_each(|word| *word = random(state) as u32);
    rebuild(&samples, &octants, bin.bucket, bin.samples.len())
}

fn each(sets: Vec<Vec<Sample>>) -> impl Iterator<Item = Bin> {
    sets.into_iter().flat_map(|samples| BUCKETS.map(|bucket| exact(&samples, bucket)))
}

#[test]
fn sets_rebuilt() {
    let mut state = 1;
    for bin in each(small_sets()).chain(each(large_sets())) {
        assert_eq!(rebuild_set(&bin, &mut state), 0);
        assert_eq!(rebuild_set(&with_a_row_more(&bin), &mut state), 0);
        // One octant word too few.
        let (samples, octants) = bin.tables();
        let number = rebuild(&samples, &octants[..octants.len() - 1], bin.bucket, bin.samples.len());
        assert_eq!(number, if bin.samples.is_empty() { 1 } else { 7 });
    }
}

#[test]
fn longest_tables() {
    let mut state = 2;
    let most = MOST_SAMPLES;
    for colours in [scattered(most, 3), clustered(most, 12, 5_000, 4), close_pairs(most, 5)] {
        for bucket in [1, 16] {
            let bin = longest(exact(&tagged(colours.clone()), bucket));
            assert_eq!(rebuild_set(&bin, &mut state), 0);
        }
    }
}

/// Fewer rows than there are, and more.
#[test]
fn other_numbers_of_rows() {
    for bin in each(small_sets()) {
        let (samples, octants) = bin.tables();
        let n = bin.samples.len();
        for rows in (0..n + 3).chain([MOST_SAMPLES, MOST_SAMPLES + 1, usize::MAX]) {
            rebuild(&samples, &octants, bin.bucket, rows);
        }
        assert_eq!(rebuild(&samples, &octants, bin.bucket, n + 1), 6);
    }
    let most = exact(&tagged(scattered(MOST_SAMPLES, 6)), MOST_BUCKET);
    let (samples, octants) = longer(&most, SAMPLE_ROW, OCTANT_ROW).tables();
    assert_eq!(rebuild(&samples, &octants, MOST_BUCKET, MOST_SAMPLES), 0);
    assert_eq!(rebuild(&samples, &octants, MOST_BUCKET, MOST_SAMPLES + 1), 6);
}

#[test]
fn bucket_sizes() {
    let (samples, _) = exact(&tagged(clustered(300, 3, 200, 7)), 1).tables();
    let octants = vec![9; octant_words(3_000)];
    for bucket in (0..=300).chain([1 << 16, 1 << 31, u32::MAX]) {
        let number = rebuild(&samples, &octants, bucket, 300);
        assert_eq!(number, if (1..=MOST_BUCKET).contains(&bucket) { 0 } else { 3 });
    }
}

#[test]
fn codes_past_the_end() {
    for bin in each(small_sets()) {
        let (samples, octants) = bin.tables();
        for (i, channel) in (0..bin.samples.len()).flat_map(|i| [0, 1, 2].map(|h| (i, h))) {
            for code in [MOST_CODE, MOST_CODE + 1, u32::MAX] {
                let mut samples = samples.clone();
                samples[code_place(i, channel)] = code;
                rebuild(&samples, &octants, bin.bucket, bin.samples.len());
            }
        }
    }
}

/// Tables of every small length and of any words: every number comes up, also where more than one is due.
#[test]
fn random_words() {
    let mut state = 8;
    let mut seen = [0; 8];
    for _ in 0..300_000 {
        let (n, m) = (below(40, &mut state), below(90, &mut state));
        let word = |state: &mut u64| match random(state) >> 61 {
            0 => random(state) as u32,
            1 => any_of(&[0, 1, MOST_CODE, MOST_CODE + 1, u32::MAX], state),
            _ => below(CODE_COUNT, state) as u32,
        };
        let samples: Vec<u32> = (0..n).map(|_| word(&mut state)).collect();
        let octants: Vec<u32> = (0..m).map(|_| word(&mut state)).collect();
        let bucket = any_of(&[0, 1, 1, 2, 3, 4, MOST_BUCKET, MOST_BUCKET + 1], &mut state);
        seen[rebuild(&samples, &octants, bucket, below(10, &mut state)) as usize] += 1;
    }
    assert!([0, 1, 3, 4, 6, 7].iter().all(|&number| seen[number] > 100), "{seen:?}");
}
