//! Floats to codes and back, compared with the straight scan call by call.
//!
//! `cargo test --release` takes a few seconds. The ignored tests go through all 2^32 floats in each
//! channel: `make test-long`, or `cargo test --release -- --ignored`.

#[path = "../../oracle/straight_scan.rs"]
#[allow(dead_code)]
#[rustfmt::skip]
mod straight_scan;

mod lent;
mod numbers;
mod plain;
mod random;

use numbers::*;
use plain::colour::*;
use random::random;

fn wrapper(call: Call) -> Answer {
    let result = match call {
        Call::Codes(p) => hubeltxa::codes(p.map(f32::from_bits)),
        Call::Floats(c) => hubeltxa::floats(c).map(|p| p.map(f32::to_bits)),
    };
    answer(result.map_err(u32::from))
}

/// The one comparison: every input goes through it. Gives the answer, for tests that look at it.
fn compare(call: Call) -> Answer {
    let expected = oracle(call);
    assert_eq!(library(call), expected, "the library on {call:x?}");
    assert_eq!(wrapper(call), expected, "the wrapper on {call:x?}");
    expected
}

/// Three good channels with codes that differ: 0.25, 0.5 and the float after 0.75.
const GOOD: [u32; 3] = [0x3E80_0000, 0x3F00_0000, 0x3F40_0001];

/// A float in one channel, the others good.
fn compare_in(channel: usize, bits: u32) {
    let mut p = GOOD;
    p[channel] = bits;
    compare(Call::Codes(p));
}

fn compare_in_each(bits: u32) {
    (0..3).for_each(|channel| compare_in(channel, bits));
}

/// Every list of three of these.
fn triples(of: &[u32]) -> impl Iterator<Item = [u32; 3]> + '_ {
    of.iter().flat_map(move |&x| of.iter().flat_map(move |&y| of.iter().map(move |&z| [x, y, z])))
}

#[test]
fn every_code_there_and_back() {
    for code in 0..=MOST_CODE {
        for channel in 0..3 {
            let mut codes = [1, 20_000, MOST_CODE - 1];
            codes[channel] = code;
            let (number, shown) = compare(Call::Floats(codes));
            assert_eq!(number, 0);
            assert_eq!(compare(Call::Codes(shown)), (0, codes));
            // The floats next to a code's.
            compare_in(channel, shown[channel].wrapping_sub(1));
            compare_in(channel, shown[channel] + 1);
        }
    }
}

#[test]
fn codes_past_the_end() {
    let mut codes = vec![0, 1, MOST_CODE - 1, MOST_CODE, MOST_CODE + 1, MOST_CODE + 2];
    codes.extend([MOST_RADIUS, 1 << 24, (1 << 24) + 1, u32::MAX]);
    codes.extend((17..32).flat_map(|k| [(1 << k) - 1, 1 << k, (1 << k) + 1]));
    for c in triples(&codes) {
        let refused = c.iter().any(|&code| code > MOST_CODE);
        let (number, shown) = compare(Call::Floats(c));
        assert_eq!(number, if refused { 4 } else { 0 });
        assert!(!refused || shown == [0; 3]);
    }
}

#[test]
fn floats_at_a_stride() {
    (0..=u32::MAX).step_by(1_021).for_each(compare_in_each);
}

#[test]
fn floats_at_boundaries() {
    for bits in boundaries() {
        (0..=600).for_each(|d| compare_in_each(bits.wrapping_add(d).wrapping_sub(300)));
    }
}

#[test]
fn floats_mixed() {
    let few = [0, 1, 0x8000_0000, 0x8000_0001, least_float(1) - 1, least_float(1)];
    let ends = [GREATEST_CHANNEL, BAD_CHANNEL, BAD_RADIUS];
    let bad = [0xBF00_0000, 0x7F80_0000, 0xFF80_0000, 0x7F80_0001, 0x7FC0_0000, 0xFFFF_FFFF];
    triples(&[&few[..], &ends[..], &bad[..], &GOOD[..]].concat()).for_each(|p| _ = compare(Call::Codes(p)));
    let all = boundaries();
    let mut state = 1;
    for _ in 0..1_000_000 {
        // Most channels are good, so that many of the colours are.
        compare(Call::Codes([0; 3].map(|_: u32| {
            let x = random(&mut state);
            let bits = (x >> 32) as u32;
            match x % 16 {
                0 => bits,
                1 => all[bits as usize % all.len()],
                _ => bits % (GREATEST_CHANNEL + 1),
            }
        })));
    }
}

/// Cases j to l of document 01, by their numbers.
#[test]
fn cases() {
    for (bits, number, code) in [
        (0x3F7F_FFFF, 0, 65_535),
        (0x3F80_0000, 9, 0),
        (0x3780_0000, 0, 1),
        (0x377F_FFFF, 0, 0),
        (0x8000_0000, 0, 0),
        (0xBF00_0000, 9, 0),
        (0x7FC0_0000, 9, 0),
    ] {
        assert_eq!(compare(Call::Codes([bits; 3])), (number, [code; 3]));
    }
}

#[test]
#[ignore = "long: all 2^32 floats"]
fn every_float_as_red() {
    (0..=u32::MAX).for_each(|bits| compare_in(0, bits));
}

#[test]
#[ignore = "long: all 2^32 floats"]
fn every_float_as_green() {
    (0..=u32::MAX).for_each(|bits| compare_in(1, bits));
}

#[test]
#[ignore = "long: all 2^32 floats"]
fn every_float_as_blue() {
    (0..=u32::MAX).for_each(|bits| compare_in(2, bits));
}
