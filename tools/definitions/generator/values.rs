//! Values of single definitions: floats to codes and back, keys, row counts and first clears.

use crate::antt::{arguments, numbers, Output};
use crate::floats;
use crate::numbers::*;
use crate::pseudo_random::codes;
use crate::random::Random;
use crate::straight_scan::{self, Bin, Codes};

/// A definition's value and the straight scan's, as terms, and what to count it under.
pub struct Value {
    pub computed: String,
    pub expected: String,
    pub outcome: String,
    pub described: String,
}

impl Value {
    /// Words that say more than the term does.
    pub fn described(self, described: String) -> Value {
        Value { described, ..self }
    }
}

pub fn value(computed: String, expected: String, outcome: impl ToString) -> Value {
    Value { described: computed.clone(), computed, expected, outcome: outcome.to_string() }
}

fn codes_value(panel: [u32; 3]) -> Value {
    let (number, codes) = match straight_scan::colour(panel.map(f32::from_bits)) {
        Some(codes) => (0, codes.map(u64::from)),
        None => (9, [0; 3]),
    };
    let said = numbers(&[&[number], &codes[..]].concat());
    value(format!("codes_value {}", arguments(&panel)), said, number)
}

fn panels(random: &mut Random) -> Vec<[u32; 3]> {
    let mut panels = Vec::new();
    for float in floats::BAD.into_iter().chain(floats::ODD) {
        panels.extend([[float, 0x3F00_0000, GREATEST_CHANNEL], [0, float, 0x8000_0000], [GREATEST_CHANNEL, 0, float]]);
    }
    for _ in 0..25 {
        panels.push(codes(random).map(|code| floats::with_code(random, code)));
        panels.push([(); 3].map(|()| random.word() >> 2));
        panels.push([random.word(), random.word() >> 2, least_float(1)]);
    }
    panels
}

fn shown_colours(random: &mut Random) -> Vec<Codes> {
    let mut colours: Vec<Codes> = (0..16).map(|bit| [1 << bit, (1 << bit) - 1, MOST_CODE - (1 << bit)]).collect();
    colours.extend((0..25).map(|_| codes(random)));
    for over in [MOST_CODE + 1, MOST_CODE + 2, u32::MAX] {
        colours.extend([[over, 1, 2], [1, over, 2], [1, 2, over]]);
    }
    colours
}

fn floats_value(colour: Codes) -> Value {
    let (number, panel) = match straight_scan::shown(colour) {
        Ok(panel) => (0, panel.map(f32::to_bits)),
        Err(number) => (number, [0; 3]),
    };
    let expected = format!("(panel_numbers {number} (panel {}))", arguments(&panel));
    value(format!("floats_value {}", arguments(&colour)), expected, number)
}

/// The key by halving cubes from the root down, as no definition of it does.
fn key_value(colour: Codes) -> Value {
    let (mut low, mut side, mut key) = ([0; 3], CODE_COUNT as u32, 0u64);
    while side > 1 {
        side /= 2;
        key *= 8;
        for i in 0..3 {
            if colour[i] >= low[i] + side {
                low[i] += side;
                key += 1 << i;
            }
        }
    }
    value(format!("number (key (colour {}))", arguments(&colour)), numbers(&[key]), "some")
}

fn rows_value(length: usize) -> Value {
    let set = Bin { samples: vec![], bucket: 1, sample_words: length, octant_words: length };
    let said = [set.sample_rows() as u64, set.octant_rows() as u64];
    value(format!("rows_value {length}"), numbers(&said), "some")
}

/// First clears, also those that are refused, on which no sequence can follow.
fn start_value(bucket: u32, sample_words: usize, octant_words: usize) -> Value {
    let number = straight_scan::start(sample_words, octant_words, bucket).map_or_else(|number| number, |_| 0);
    let computed = format!("number (start_number {bucket} {sample_words} {octant_words})");
    value(computed, numbers(&[number as u64]), number)
}

pub fn all(output: &mut Output, random: &mut Random) {
    let panels = panels(random);
    let colours = shown_colours(random);
    output.module();
    output.values("floats_to_codes", &panels.into_iter().map(codes_value).collect::<Vec<_>>());
    output.values("codes_to_floats", &colours.iter().map(|&c| floats_value(c)).collect::<Vec<_>>());
    output.values("key", &colours.iter().take(41).map(|&c| key_value(c)).collect::<Vec<_>>());
    let about = |words: usize| [words - 1, words, words + 1];
    let few = [sample_words(1), octant_words(1), octant_words(2)].map(about).concat();
    let most = sample_words(MOST_SAMPLES);
    let ends = [&[most - 1, most], &about(sample_words(MOST_SAMPLES + 1))[..], &[30_000, u32::MAX as usize]].concat();
    let lengths = [&[SAMPLE_HEADER, SAMPLE_HEADER + 1], &few[..], &ends].concat();
    output.values("rows", &lengths.into_iter().map(rows_value).collect::<Vec<_>>());
    let mut starts = Vec::new();
    let (samples, octants) = (SAMPLE_HEADER, OCTANT_HEADER);
    let row = (sample_words(1), octant_words(1));
    let lengths = [(samples, octants), (samples - 1, octants), (samples, 0), (0, 0), row];
    for bucket in [0, 1, 2, MOST_BUCKET, MOST_BUCKET + 1, u32::MAX] {
        starts.extend(lengths.map(|(s, o)| start_value(bucket, s, o)));
    }
    output.values("start", &starts);
}
