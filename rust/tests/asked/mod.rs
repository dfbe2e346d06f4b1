//! Queries: aimed at samples and at the planes between octants, at random, and with floats that are refused.

#![allow(dead_code)]

use crate::numbers::*;
use crate::random::*;
use crate::straight_scan::{distance, Codes, Gesture, Sample};

pub fn ball(centre: Codes, radius: u32) -> Gesture {
    Gesture::Ball { centre: centre.map(float), radius: float(radius) }
}

pub fn nearest(centre: Codes, radius: u32) -> Gesture {
    Gesture::Near { centre: centre.map(float), radius: float(radius) }
}

pub fn box_of(low: Codes, high: Codes) -> Gesture {
    Gesture::Box { low: low.map(float), high: high.map(float) }
}

/// A colour, and those one code off in each channel and direction.
pub fn beside(codes: Codes) -> Vec<Codes> {
    let off = |channel: usize, up: bool| {
        let mut codes = codes;
        codes[channel] = if up { codes[channel] + 1 } else { codes[channel].wrapping_sub(1) };
        codes
    };
    let all = (0..3).flat_map(|channel| [off(channel, false), off(channel, true)]).chain([codes]);
    all.filter(|codes| codes.iter().all(|&code| code <= MOST_CODE)).collect()
}

/// Codes on both sides of the planes between octants.
pub fn plane_codes() -> Vec<u32> {
    let powers = (0..16).flat_map(|j| [(1 << j) - 1, 1 << j, (1 << j) + 1]);
    powers.chain([16_383, 16_384, 49_151, 49_152, MOST_CODE - 1, MOST_CODE]).collect()
}

/// The floor and the ceiling of the root of a squared distance, and one less and one more: where it is a square, the
/// radius of exactly that distance is among them, which does not list it.
pub fn radii_at(d2: u64) -> Vec<u32> {
    let mut floor = (d2 as f64).sqrt() as u64;
    while floor * floor > d2 {
        floor -= 1;
    }
    while (floor + 1) * (floor + 1) <= d2 {
        floor += 1;
    }
    let ceiling = floor + (floor * floor < d2) as u64;
    let all = [floor.wrapping_sub(1), floor, ceiling, ceiling + 1];
    all.into_iter().filter(|&radius| radius <= MOST_RADIUS as u64).map(|radius| radius as u32).collect()
}

/// Radii at the distance of each sample from a centre, and the usual ones. 113,510 is the first that reaches from
/// corner to corner.
pub fn radii(samples: &[Sample], centre: Codes) -> Vec<u32> {
    let usual = [0, 1, 2, MOST_CODE, MOST_CODE + 1, 113_509, 113_510, MOST_RADIUS - 1, MOST_RADIUS];
    let distances = samples.iter().flat_map(|sample| radii_at(distance(sample.codes, centre)));
    let mut all: Vec<u32> = distances.chain(usual).collect();
    all.sort();
    all.dedup();
    all
}

/// Centres on each sample, one code beside it, and between it and the next.
pub fn centres(samples: &[Sample]) -> Vec<Codes> {
    let on = samples.iter().flat_map(|sample| beside(sample.codes));
    let middle = |(x, y): (&Sample, &Sample)| [0, 1, 2].map(|h| (x.codes[h] + y.codes[h]) / 2);
    on.chain(samples.iter().zip(samples.iter().skip(1)).map(middle)).collect()
}

/// Centres on the planes between octants: in all channels, and in each with the others a sample's.
pub fn centres_on_planes(samples: &[Sample]) -> Vec<Codes> {
    let sample = samples.first().map_or([MOST_CODE, 0, 32_768], |sample| sample.codes);
    let in_one = |code: u32| {
        let with = move |channel: usize| {
            let mut codes = sample;
            codes[channel] = code;
            codes
        };
        (0..3).map(with).chain([[code; 3]])
    };
    plane_codes().into_iter().flat_map(in_one).collect()
}

/// Boxes that end at a sample, or one code short of it, on each side: the other sides are everything, the sample
/// itself, or a code beside it.
pub fn boxes_at(codes: Codes) -> Vec<(Codes, Codes)> {
    let around = |by: u32| (codes.map(|code| code.saturating_sub(by)), codes.map(|code| MOST_CODE.min(code + by)));
    let mut all = vec![];
    for (low, high) in [([0; 3], [MOST_CODE; 3]), (codes, codes), around(1), around(300)] {
        all.push((low, high));
        for channel in 0..3 {
            let code = codes[channel];
            let mut side = |from: u32, to: u32| {
                let (mut low, mut high) = (low, high);
                (low[channel], high[channel]) = (from, to);
                if from <= to && to <= MOST_CODE {
                    all.push((low, high));
                }
            };
            [code.wrapping_sub(1), code, code + 1].into_iter().for_each(|from| side(from, high[channel]));
            [code.wrapping_sub(1), code, code + 1].into_iter().for_each(|to| side(low[channel], to));
        }
    }
    all
}

/// Boxes that are octants around a sample, which lie inside, and those one code narrower or wider on a side, which do
/// not; and with low above high in one channel.
pub fn octant_boxes(codes: Codes) -> Vec<(Codes, Codes)> {
    let mut all = vec![];
    for side in (0..=16).map(|j| 1_u32 << j) {
        let low = codes.map(|code| code / side * side);
        let high = low.map(|code| code + side - 1);
        all.push((low, high));
        for channel in 0..3 {
            for (down, up) in [(0, 1), (0, u32::MAX), (1, 0), (u32::MAX, 0)] {
                let (mut low, mut high) = (low, high);
                low[channel] = low[channel].wrapping_add(down);
                high[channel] = high[channel].wrapping_add(up);
                if low[channel] <= MOST_CODE && high[channel] <= MOST_CODE {
                    all.push((low, high));
                }
            }
        }
    }
    all
}

/// The codes in a row that there is, clipped to codes; any where there is none.
pub fn row_codes(samples: &[u32], state: &mut u64) -> Codes {
    match sample_rows(samples.len()) {
        0 => [0; 3].map(|_: u32| below(CODE_COUNT, state) as u32),
        rows => {
            let used = sample_count(samples).clamp(1, rows);
            codes_of(samples, below(used, state)).map(|code| code & MOST_CODE)
        }
    }
}

/// A colour of the table, or near one, or on a plane, or any.
pub fn any_codes(samples: &[u32], state: &mut u64) -> Codes {
    let codes = row_codes(samples, state);
    match below(5, state) {
        0 => codes,
        1 => {
            let near = beside(codes);
            any_of(&near, state)
        }
        2 => codes.map(|code| (code + below(4_000, state) as u32).saturating_sub(2_000).min(MOST_CODE)),
        3 => [0; 3].map(|_: u32| any_of(&plane_codes(), state)),
        _ => [0; 3].map(|_: u32| below(CODE_COUNT, state) as u32),
    }
}

/// A centre, and a radius: one of the usual, any, or at the distance of a sample.
fn any_region(samples: &[u32], state: &mut u64) -> (Codes, u32) {
    let centre = any_codes(samples, state);
    let radius = match below(6, state) {
        0 => any_of(&[0, 1, MOST_CODE + 1, 113_509, 113_510, MOST_RADIUS], state),
        1 => 1 << below(17, state),
        2 => below(MOST_RADIUS as usize, state) as u32,
        3 => below(3_000, state) as u32,
        _ => any_of(&radii_at(distance(row_codes(samples, state), centre)), state),
    };
    (centre, radius)
}

pub fn any_ball(samples: &[u32], state: &mut u64) -> Gesture {
    let (centre, radius) = any_region(samples, state);
    ball(centre, radius)
}

pub fn any_nearest(samples: &[u32], state: &mut u64) -> Gesture {
    let (centre, radius) = any_region(samples, state);
    nearest(centre, radius)
}

pub fn any_box(samples: &[u32], state: &mut u64) -> Gesture {
    let (one, other) = (any_codes(samples, state), any_codes(samples, state));
    match below(5, state) {
        0 => box_of([0; 3], [MOST_CODE; 3]),
        1 => {
            let (low, high) = any_of(&boxes_at(one), state);
            box_of(low, high)
        }
        2 => {
            let (low, high) = any_of(&octant_boxes(one), state);
            box_of(low, high)
        }
        _ => box_of([0, 1, 2].map(|h| one[h].min(other[h])), [0, 1, 2].map(|h| one[h].max(other[h]))),
    }
}

/// Floats that are no channel, and those that are no radius.
pub fn bad_channels() -> Vec<f32> {
    let great = [BAD_CHANNEL, BAD_CHANNEL + 1, BAD_RADIUS, 0x7F7F_FFFF, 0x7F80_0000];
    let nans = [0x7F80_0001, 0x7FC0_0000, 0x7FFF_FFFF];
    let negative = [0x8000_0001, 0xB780_0000, 0xBF00_0000, 0xBF80_0000, 0xFF80_0000, 0xFF80_0001, 0xFFC0_0000];
    great.into_iter().chain(nans).chain(negative).map(f32::from_bits).collect()
}

pub fn bad_radii() -> Vec<f32> {
    bad_channels().into_iter().filter(|&v| !good_radius(v)).chain([f32::from_bits(BAD_RADIUS + 1)]).collect()
}

/// The same query with one float in place of another: 0 to 3 of a ball or of nearest, 0 to 5 of a box.
pub fn with_float(query: &Gesture, at: usize, v: f32) -> Gesture {
    let mut altered = *query;
    match &mut altered {
        Gesture::Ball { centre, radius } | Gesture::Near { centre, radius } => {
            *centre.iter_mut().chain([radius]).nth(at).unwrap() = v
        }
        Gesture::Box { low, high } => *low.iter_mut().chain(high).nth(at).unwrap() = v,
    }
    altered
}

/// Of sixteen, one with a float in its place that is refused; else the query itself.
pub fn seldom_bad(query: Gesture, state: &mut u64) -> Gesture {
    match below(16, state) {
        0 => with_float(&query, below(4, state), any_of(&bad_radii(), state)),
        _ => query,
    }
}
