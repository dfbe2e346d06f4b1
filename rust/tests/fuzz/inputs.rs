//! What calls are given, at random: good, at the edges, and damaged.

use super::step::{floats_of, Step};
use crate::asked::{bad_radii, with_float};
use crate::calls::{any_sheet, known_tag, new_tag};
use crate::days::any_pick;
use crate::lines::edits::{edited, tags_in};
use crate::lines::LONG_NAME;
use crate::numbers::*;
use crate::plain::colour;
use crate::random::*;
use crate::straight_scan::{Bin, Call, Codes, Gesture};

/// Codes at the ends, where they get a digit more, and in the middle.
const EDGES: [u32; 12] = [0, 1, 9, 10, 9_999, 10_000, 16_383, 16_384, 32_767, 32_768, MOST_CODE - 1, MOST_CODE];

/// Floats where a code starts, or what is good ends: minus zero, a code of 1, channels and radii past the last.
const FLOAT_EDGES: [u32; 7] = [0, 0x8000_0000, least_float(1), 0x3F00_0000, BAD_CHANNEL, BAD_RADIUS, 0x7F80_0000];

/// A code; of sixteen, one that may be out of range.
fn any_code(state: &mut u64) -> u32 {
    match below(16, state) {
        0 => any_of(&[MOST_CODE + 1, MOST_CODE + 2, 99_999, 100_000, 1 << 31, u32::MAX, random(state) as u32], state),
        1..=3 => any_of(&EDGES, state),
        _ => below(CODE_COUNT, state) as u32,
    }
}

fn any_codes(state: &mut u64) -> Codes {
    [0; 3].map(|_: u32| any_code(state))
}

/// The bits of a float, or of the one before or after it: most of them of a good channel, of which many are a code's.
fn any_bits(state: &mut u64) -> u32 {
    let bits = match below(16, state) {
        0 => random(state) as u32,
        1 => any_of(&colour::boundaries(), state),
        2 => any_of(&FLOAT_EDGES, state),
        3..=4 => float(any_of(&EDGES, state)).to_bits(),
        5..=8 => float(below(CODE_COUNT, state) as u32).to_bits(),
        _ => random(state) as u32 % (GREATEST_CHANNEL + 1),
    };
    any_of(&[bits, bits.wrapping_add(1), bits.wrapping_sub(1)], state)
}

pub fn any_colour(state: &mut u64) -> Step {
    Step::Colour(match below(2, state) {
        0 => colour::Call::Codes([0; 3].map(|_: u32| any_bits(state))),
        _ => colour::Call::Floats(any_codes(state)),
    })
}

/// A name; of eight, one that is too long, and one with any byte in some place. A name may have no bytes.
fn any_name(state: &mut u64) -> Vec<u8> {
    let length = any_of(&[0, 1, 2, 4, 4, 4, 4, 9, NAME_COLUMNS - 1, NAME_COLUMNS], state);
    let mut name: Vec<u8> = (0..length).map(|_| 33 + below(94, state) as u8).collect();
    match below(8, state) {
        0 => name.resize(NAME_COLUMNS + 1 + below(40, state), b'!'),
        1 if length > 0 => name[below(length, state)] = random(state) as u8,
        2 => name = LONG_NAME.into(),
        _ => {}
    }
    name
}

pub fn any_line(set: &Bin, state: &mut u64) -> Step {
    let lent = match below(8, state) {
        0 => below(LINE_LENGTH, state),
        1 => LINE_LENGTH - 1,
        2 => LINE_LENGTH + below(80, state),
        _ => LINE_LENGTH,
    };
    Step::Line { tag: new_tag(set, state), codes: any_codes(state), name: any_name(state), lent }
}

/// A sheet of the kind that is loaded; of three, one with a few edits more.
fn any_text(set: &Bin, colours: &[Codes], most_lines: usize, state: &mut u64) -> Vec<u8> {
    let sheet = any_sheet(set, colours, most_lines, state);
    match below(3, state) {
        0 => edited(sheet, state),
        _ => sheet,
    }
}

/// A lookup; of four, one for a tag that may be in no line.
pub fn any_lookup(set: &Bin, colours: &[Codes], most_lines: usize, state: &mut u64) -> Step {
    let sheet = any_text(set, colours, most_lines, state);
    let tags = tags_in(&sheet);
    let tag = if tags.is_empty() || below(4, state) == 0 { known_tag(set, state) } else { any_of(&tags, state) };
    Step::Name { sheet, tag }
}

pub fn any_load(set: &Bin, colours: &[Codes], most_lines: usize, state: &mut u64) -> Step {
    Step::Change(Call::Load(any_text(set, colours, most_lines, state)))
}

/// The query with one float next to what it was, or any float; a box with its corners exchanged in a channel.
fn altered(mut query: Gesture, state: &mut u64) -> Gesture {
    let floats = floats_of(&query);
    let at = below(floats.len(), state);
    match (below(4, state), &mut query) {
        (0, _) => with_float(&query, at, f32::from_bits(any_bits(state))),
        (1, _) => with_float(&query, at, any_of(&bad_radii(), state)),
        (2, Gesture::Box { low, high }) => {
            std::mem::swap(&mut low[at % 3], &mut high[at % 3]);
            query
        }
        _ => {
            let step = any_of(&[1, u32::MAX], state);
            with_float(&query, at, f32::from_bits(floats[at].to_bits().wrapping_add(step)))
        }
    }
}

/// A query aimed at a sample table; of four, one that is altered.
pub fn any_query(samples: &[u32], state: &mut u64) -> (Gesture, Vec<Tag>) {
    let rows = if samples.is_empty() { 0 } else { sample_count(samples).min(samples.len() / SAMPLE_ROW) };
    let Call::Pick(query, lent) = any_pick(samples, rows, state) else { unreachable!() };
    match below(4, state) {
        0 => (altered(query, state), lent),
        _ => (query, lent),
    }
}
