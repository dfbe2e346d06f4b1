//! Floats by their bits: those of a code, those that are refused, and odd ones that are not.

use crate::numbers::{float, least_float, BAD_CHANNEL, BAD_RADIUS, GREATEST_CHANNEL, GREATEST_RADIUS, MOST_CODE};
use crate::random::Random;

/// No channel: NaNs, infinities, negatives, and those past the greatest, of which some are a radius.
pub const BAD: [u32; 20] = [
    0x7FC0_0000,
    0xFFC0_0000,
    0x7F80_0001,
    0x7FFF_FFFF,
    0xFFFF_FFFF,
    0x7F80_0000,
    0xFF80_0000,
    0x8000_0001,
    0x807F_FFFF,
    0x8080_0000,
    0xB780_0000,
    0xBF00_0000,
    0xBF7F_FFFF,
    0xFF7F_FFFF,
    BAD_CHANNEL,
    BAD_CHANNEL + 1,
    GREATEST_RADIUS,
    BAD_RADIUS,
    0x4B00_0000,
    0x7F7F_FFFF,
];

/// Zeros, subnormals, both sides of where code 0 ends and of the middle, and the first and the last of the greatest code.
pub const ODD: [u32; 12] = [
    0x8000_0000,
    0x0000_0000,
    0x0000_0001,
    0x007F_FFFF,
    0x0080_0000,
    least_float(1) - 1,
    least_float(1),
    least_float(1) + 1,
    0x3EFF_FFFF,
    0x3F00_0000,
    least_float(MOST_CODE),
    GREATEST_CHANNEL,
];

/// The float that shows a code, or a radius.
pub fn shown(code: u32) -> u32 {
    float(code).to_bits()
}

pub fn shown_panel(codes: [u32; 3]) -> [u32; 3] {
    codes.map(shown)
}

/// A float with this code: the least, the greatest or one between.
pub fn with_code(random: &mut Random, code: u32) -> u32 {
    let least = least_float(code);
    let greatest = least_float(code + 1) - 1;
    match random.below(5) {
        0 if code == 0 => 0x8000_0000,
        0..=2 => least,
        3 => greatest,
        _ => least + random.below((greatest - least) as usize + 1) as u32,
    }
}
