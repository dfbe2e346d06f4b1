//! Calls, made from tags, codes and the bits of floats, and sequences of them.

use crate::numbers::Tag;
use crate::straight_scan::{Call, Codes, Gesture};

/// A first clear on tables of these lengths, and the calls after it.
pub struct Sequence {
    pub name: String,
    pub bucket: u32,
    pub sample_words: usize,
    pub octant_words: usize,
    pub calls: Vec<Call>,
}

pub fn add(tag: Tag, codes: Codes) -> Call {
    Call::Add(tag, codes)
}

fn panel(bits: [u32; 3]) -> [f32; 3] {
    bits.map(f32::from_bits)
}

pub fn ball(centre: [u32; 3], radius: u32, listing: &[Tag]) -> Call {
    let query = Gesture::Ball { centre: panel(centre), radius: f32::from_bits(radius) };
    Call::Pick(query, listing.to_vec())
}

pub fn nearest(centre: [u32; 3], radius: u32, listing: &[Tag]) -> Call {
    let query = Gesture::Near { centre: panel(centre), radius: f32::from_bits(radius) };
    Call::Pick(query, listing.to_vec())
}

pub fn in_box(low: [u32; 3], high: [u32; 3], listing: &[Tag]) -> Call {
    Call::Pick(Gesture::Box { low: panel(low), high: panel(high) }, listing.to_vec())
}

pub fn kind(call: &Call) -> &'static str {
    match call {
        Call::Clear(_) => "clear",
        Call::Load(_) => "load",
        Call::Add(..) => "add",
        Call::Remove(_) => "remove",
        Call::Pick(Gesture::Ball { .. }, _) => "ball",
        Call::Pick(Gesture::Box { .. }, _) => "box",
        Call::Pick(Gesture::Near { .. }, _) => "nearest",
    }
}

/// The call for a person to read, where it is one on which the two part.
pub fn describe(call: &Call) -> String {
    let bits = |p: &[f32; 3]| p.map(|v| format!("0x{:08X}", v.to_bits())).join(" ");
    match call {
        Call::Clear(bucket) => format!("clear, bucket size {bucket}"),
        Call::Load(sheet) => format!("load \"{}\"", sheet.escape_ascii()),
        Call::Add(tag, codes) => format!("add {tag} {codes:?}"),
        Call::Remove(tag) => format!("remove {tag}"),
        Call::Pick(query, listing) => match query {
            Gesture::Ball { centre, radius } | Gesture::Near { centre, radius } => {
                let (kind, radius) = (kind(call), radius.to_bits());
                format!("{kind}, centre {} radius 0x{radius:08X}, listing of {} words", bits(centre), listing.len())
            }
            Gesture::Box { low, high } => {
                format!("box, low {} high {}, listing of {} words", bits(low), bits(high), listing.len())
            }
        },
    }
}
