//! Pseudo-random sequences. Chance alone seldom meets an edge, so colours, radii and lengths are mostly taken from
//! edges and from what the set holds.

use crate::calls::{add, ball, in_box, nearest, Sequence};
use crate::floats;
use crate::numbers::*;
use crate::random::Random;
use crate::sheets;
use crate::straight_scan::{distance, start, Bin, Call, Codes, Sample};

const CODES: [u32; 22] = [
    0, 0, 1, 2, 3, 4, 7, 8, 255, 256, 16_383, 16_384, 21_845, 32_766, 32_767, 32_768, 32_769, 49_152, 65_533, 65_534,
    65_535, 65_535,
];

const RADII: [u32; 16] =
    [0, 1, 2, 3, 100, 8_192, 28_378, 32_767, 32_768, 56_755, 65_535, 65_536, 92_682, 113_509, 113_510, MOST_RADIUS];

pub fn code(random: &mut Random) -> u32 {
    if random.once_in(5) {
        random.below(CODE_COUNT) as u32
    } else {
        random.one_of(&CODES)
    }
}

pub fn codes(random: &mut Random) -> Codes {
    [(); 3].map(|()| code(random))
}

pub fn tag(random: &mut Random) -> Tag {
    match random.below(12) {
        0 => 0,
        1 => MOST_TAG,
        2 => random.word() as Tag,
        _ => random.below(16) as Tag,
    }
}

/// The greatest whole number whose square is at most n.
pub fn root(n: u64) -> u32 {
    (0..18).rev().fold(0, |root: u64, bit| if (root + (1 << bit)).pow(2) <= n { root + (1 << bit) } else { root })
        as u32
}

fn held(random: &mut Random, set: &Bin) -> Option<Sample> {
    if set.samples.is_empty() {
        None
    } else {
        Some(set.samples[random.below(set.samples.len())])
    }
}

/// Mostly a colour that the set holds, or one that parts from it at the last depth, at some depth, or at the planes
/// through the middle of the root.
fn colour_near(random: &mut Random, set: &Bin) -> Codes {
    let Some(sample) = held(random, set).filter(|_| !random.once_in(3)) else {
        return if random.once_in(3) { [(); 3].map(|()| random.one_of(&[32_767, 32_768])) } else { codes(random) };
    };
    let mut colour = sample.codes;
    let channel = &mut colour[random.below(3)];
    match random.below(5) {
        0 | 1 => {}
        2 => *channel ^= 1,
        3 => *channel ^= 1 << random.below(16),
        _ => *channel = if *channel < 32_768 { 32_768 } else { 32_767 },
    }
    colour
}

/// Listings of every length about the number of samples, with words that no call may disturb.
fn listing(random: &mut Random, set: &Bin) -> Vec<Tag> {
    let count = set.samples.len();
    let length = match random.below(5) {
        0 => random.below(3),
        1 => count,
        2 => count + 1 + random.below(2),
        3 => count.saturating_sub(1),
        _ => random.below(14),
    };
    (0..length).map(|_| random.one_of(&[0, 1, 7, 0xDEAD_BEEF, MOST_TAG])).collect()
}

/// A float of the code, now and then an odd or a bad one.
fn float(random: &mut Random, code: u32) -> u32 {
    match random.below(50) {
        0 | 1 => random.one_of(&floats::ODD),
        2 => random.one_of(&floats::BAD),
        _ => floats::with_code(random, code),
    }
}

fn panel(random: &mut Random, codes: Codes) -> [u32; 3] {
    codes.map(|code| float(random, code))
}

/// A ball or a nearest query, two times in three with a radius about the distance of a sample. One time in two that
/// distance is a whole number (along a channel, or by steps as 2, 3, 6), so that d² = r² is met.
fn round_query(random: &mut Random, set: &Bin, make: fn([u32; 3], u32, &[Tag]) -> Call) -> Call {
    let mut centre = colour_near(random, set);
    let mut radius = random.one_of(&RADII);
    if let Some(sample) = held(random, set).filter(|_| !random.once_in(3)) {
        if random.once_in(2) {
            let along = [random.one_of(&[1, 2, 5, 100, 32_767]), 0, 0];
            let steps = random.one_of(&[along, [3, 4, 0], [2, 3, 6]]);
            centre = [0, 1, 2].map(|i| match sample.codes[i].checked_sub(steps[i]) {
                Some(code) => code,
                None => sample.codes[i] + steps[i],
            });
        }
        radius = (root(distance(centre, sample.codes)) + random.one_of(&[0, 1, 1, 2]))
            .saturating_sub(random.below(2) as u32);
    }
    make(panel(random, centre), float(random, radius), &listing(random, set))
}

/// A box with corners near samples or at the ends; its corners are in order but one time in eight.
fn box_query(random: &mut Random, set: &Bin) -> Call {
    let mut low = colour_near(random, set);
    let mut high = colour_near(random, set);
    for i in 0..3 {
        match random.below(4) {
            0 => low[i] = random.one_of(&[0, 0, 1, 32_767, 32_768]),
            1 => high[i] = random.one_of(&[MOST_CODE, MOST_CODE, MOST_CODE - 1, 32_767, 32_768]),
            2 => (low[i], high[i]) = (0, random.one_of(&[16_383, 32_767, MOST_CODE])),
            _ => {}
        }
        if low[i] > high[i] && !random.once_in(8) {
            (low[i], high[i]) = (high[i], low[i]);
        }
    }
    in_box(panel(random, low), panel(random, high), &listing(random, set))
}

fn load(random: &mut Random, set: &Bin) -> Call {
    let count = random.below(5);
    let mut samples = Vec::new();
    for _ in 0..count {
        let tag = if random.once_in(10) { tag(random) } else { 20 + random.below(60) as Tag };
        samples.push(Sample { tag, codes: colour_near(random, set) });
    }
    Call::Load(sheets::of_samples(random, &samples))
}

fn add_call(random: &mut Random, set: &Bin) -> Call {
    let known = held(random, set).filter(|_| random.once_in(10));
    let mut colour = colour_near(random, set);
    if random.once_in(12) {
        colour[random.below(3)] = random.one_of(&[MOST_CODE + 1, MOST_CODE + 2, 131_072, u32::MAX]);
    }
    add(known.map_or_else(|| tag(random), |sample| sample.tag), colour)
}

fn any_call(random: &mut Random, set: &Bin) -> Call {
    match random.below(100) {
        0..=2 => Call::Clear(random.one_of(&[0, 1, 2, 3, 5, MOST_BUCKET, MOST_BUCKET + 1, u32::MAX])),
        3..=32 => add_call(random, set),
        33..=42 => {
            let known = held(random, set).filter(|_| !random.once_in(5));
            Call::Remove(known.map_or_else(|| tag(random), |sample| sample.tag))
        }
        43..=54 => load(random, set),
        55..=70 => round_query(random, set, ball),
        71..=84 => round_query(random, set, nearest),
        _ => box_query(random, set),
    }
}

/// A sequence of so many calls. Half begin with adds, so that queries find something.
pub fn sequence(random: &mut Random, name: String, length: usize) -> Sequence {
    let bucket = random.one_of(&[1, 1, 1, 2, 2, 2, 3, 4, MOST_BUCKET]);
    let sample_words = sample_words(random.one_of(&[0, 1, 2, 5, 8, 12, 12, 12])) + random.below(SAMPLE_ROW);
    let octant_words = octant_words(random.one_of(&[0, 1, 2, 9, 18, 30, 40, 60, 60])) + random.below(OCTANT_ROW);
    let mut set = start(sample_words, octant_words, bucket).expect("a first clear that is accepted");
    let adds = if random.once_in(2) { length / 2 } else { 0 };
    let mut calls = Vec::new();
    for k in 0..length {
        let call = if k < adds { add_call(random, &set) } else { any_call(random, &set) };
        set.call(&call);
        calls.push(call);
    }
    Sequence { name, bucket, sample_words, octant_words, calls }
}
