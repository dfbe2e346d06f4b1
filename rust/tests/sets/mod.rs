//! Sample sets, and their tables by the straight scan.

#![allow(dead_code)]

use crate::numbers::*;
use crate::random::*;
use crate::straight_scan::{Bin, Codes, Sample};

/// The bucket sizes of the tests.
pub const BUCKETS: [u32; 4] = [1, 2, 16, MOST_BUCKET];

/// Two tables, for a message: the first words of each.
pub fn shown(samples: &[u32], octants: &[u32]) -> String {
    let words = |table: &[u32]| format!("{:?} of {} words", &table[..table.len().min(60)], table.len());
    format!("{} and {}", words(samples), words(octants))
}

/// Samples of these colours. Tags are far apart, and no two are equal: an odd factor is undone by its inverse.
pub fn tagged(colours: impl IntoIterator<Item = Codes>) -> Vec<Sample> {
    let tag = |i: usize| (i as Tag).wrapping_mul(0x9E37_79B1);
    colours.into_iter().enumerate().map(|(i, codes)| Sample { tag: tag(i), codes }).collect()
}

/// A set with tables just long enough for it.
pub fn exact(samples: &[Sample], bucket: u32) -> Bin {
    let mut bin = Bin { samples: samples.to_vec(), bucket, sample_words: sample_words(samples.len()), octant_words: 0 };
    bin.octant_words = octant_words(bin.octants());
    bin
}

/// The same with so many words more.
pub fn longer(bin: &Bin, sample_words: usize, octant_words: usize) -> Bin {
    Bin { sample_words: bin.sample_words + sample_words, octant_words: bin.octant_words + octant_words, ..bin.clone() }
}

/// The same with a row more of each, and a few words.
pub fn with_a_row_more(bin: &Bin) -> Bin {
    longer(bin, SAMPLE_ROW + 3, OCTANT_ROW + 7)
}

/// The same in tables as long as any set needs.
pub fn longest(bin: Bin) -> Bin {
    Bin { sample_words: sample_words(MOST_SAMPLES), octant_words: octant_words(MOST_OCTANTS), ..bin }
}

/// Lengths to cut two tables to, of which one is too short: just so, or by all its words.
pub fn too_short_cuts(samples: &[u32], octants: &[u32]) -> [(usize, usize); 7] {
    let (s, o) = (SAMPLE_HEADER, OCTANT_HEADER);
    [(0, 0), (s - 1, 0), (0, o), (s - 1, o), (s, 0), (samples.len(), 0), (s - 1, octants.len())]
}

/// The lengths of tables with so many rows, and words after them that make no row.
pub fn any_words_of(rows: usize, octants: usize, state: &mut u64) -> (usize, usize) {
    (sample_words(rows) + below(SAMPLE_ROW, state), octant_words(octants) + below(OCTANT_ROW, state))
}

/// n colours; a channel is any code, or near one of a few centres.
pub fn scattered(n: usize, seed: u64) -> Vec<Codes> {
    let mut state = seed;
    (0..n).map(|_| [0; 3].map(|_: u32| below(CODE_COUNT, &mut state) as u32)).collect()
}

pub fn clustered(n: usize, centres: usize, width: usize, seed: u64) -> Vec<Codes> {
    let mut state = seed;
    let middles = scattered(centres, seed ^ 0xC1);
    (0..n)
        .map(|_| {
            let middle = any_of(&middles, &mut state);
            middle.map(|c| (c + below(width, &mut state) as u32).min(MOST_CODE))
        })
        .collect()
}

/// Every colour whose channels are all of these.
pub fn grid(channel: &[u32]) -> Vec<Codes> {
    let plane = |&b: &u32| channel.iter().flat_map(move |&g| channel.iter().map(move |&r| [r, g, b]));
    channel.iter().flat_map(plane).collect()
}

/// Pairs of colours that share every octant but the smallest.
pub fn close_pairs(n: usize, seed: u64) -> Vec<Codes> {
    let colours = scattered(n / 2, seed);
    colours.iter().flat_map(|c| [*c, [c[0] ^ 1, c[1], c[2]]]).collect()
}

/// The colours in range at these three distances from a centre: in any of the channels, on either side.
pub fn mirrored(centre: Codes, [a, b, c]: [u32; 3]) -> Vec<Codes> {
    let mut all = vec![];
    for by in [[a, b, c], [a, c, b], [b, a, c], [b, c, a], [c, a, b], [c, b, a]] {
        for side in 0..8 {
            let at = |h: usize| {
                if side >> h & 1 == 1 {
                    centre[h].wrapping_add(by[h])
                } else {
                    centre[h].wrapping_sub(by[h])
                }
            };
            all.push([0, 1, 2].map(at));
        }
    }
    all.retain(|codes| codes.iter().all(|&code| code <= MOST_CODE));
    all.sort();
    all.dedup();
    all
}

/// Sets of at most some 60 samples.
pub fn small_sets() -> Vec<Vec<Sample>> {
    let mut sets = vec![
        tagged([]),
        tagged([[1, 2, 3]]),
        tagged([[MOST_CODE; 3]]),
        tagged([[0; 3], [MOST_CODE; 3], [0; 3]]),
        tagged([[300, MOST_CODE, 0]; 2]),
        tagged([[300, MOST_CODE, 0]; 20]),
        tagged((0..8).map(|k| [0, 1, 2].map(|h| 32_767 + (k >> h & 1)))),
        tagged((0..8).rev().map(|k| [0, 1, 2].map(|h| MOST_CODE * (k >> h & 1)))),
        tagged(grid(&[0, 32_767, 32_768])),
        tagged(grid(&[16_383, 16_384, MOST_CODE])),
        tagged(grid(&[49_151, 49_152]).into_iter().chain([[49_151; 3]; 5])),
        tagged((0..16).map(|k| [1 << k; 3])),
        tagged((0..16).map(|k| [(1 << k) - 1, 1 << k, 0])),
        tagged(close_pairs(12, 3)),
    ];
    sets.extend((0..3).map(|h| {
        let mut pair = [[32_768; 3]; 2];
        pair[1][h] += 1;
        tagged(pair)
    }));
    sets.extend([2, 3, 5, 17, 18, 40].map(|n| tagged(scattered(n, n as u64))));
    sets.extend([9, 30, 60].map(|n| tagged(clustered(n, 3, 40, n as u64))));
    sets
}

/// Sets of some hundreds of samples to as many as there can be.
pub fn large_sets() -> Vec<Vec<Sample>> {
    vec![
        tagged([[12_345, 0, MOST_CODE]; MOST_BUCKET as usize]),
        tagged([[12_345, 0, MOST_CODE]; MOST_BUCKET as usize + 1]),
        tagged([[MOST_CODE; 3]; MOST_SAMPLES]),
        tagged(grid(&[0, 1, 2, 3, 16_384, 32_767, 32_768, MOST_CODE])),
        tagged(scattered(700, 21)),
        tagged(clustered(1_500, 12, 5_000, 22)),
        tagged(scattered(MOST_SAMPLES - 1, 23)),
        tagged(scattered(MOST_SAMPLES, 24)),
        tagged(clustered(MOST_SAMPLES, 12, 5_000, 25)),
        tagged(clustered(MOST_SAMPLES, 2, 12, 26)),
        tagged(close_pairs(MOST_SAMPLES, 27)),
    ]
}
