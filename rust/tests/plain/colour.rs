//! Floats to codes and back.

use crate::straight_scan;
use hubeltxa::raw;

/// A call with its three arguments. Floats are given by their bits, so that a NaN's payload stays.
#[derive(Clone, Copy, Debug)]
pub enum Call {
    Codes([u32; 3]),
    Floats([u32; 3]),
}

/// A call's number, and the three words that it leaves (floats by their bits).
pub type Answer = (u32, [u32; 3]);

/// The C function, on three words that hold something else and have neighbours.
pub fn library(call: Call) -> Answer {
    const HELD: u32 = 0xA5A5_A5A5;
    let mut words = [HELD; 7];
    let [n0, x, n1, y, n2, z, n3] = &mut words;
    let number = match call {
        Call::Codes(p) => {
            let [r, g, b] = p.map(f32::from_bits);
            unsafe { raw::hbx_codes(r, g, b, x, y, z) }
        }
        Call::Floats([r, g, b]) => {
            let float = |word: &mut u32| (word as *mut u32).cast::<f32>();
            unsafe { raw::hbx_floats(r, g, b, float(x), float(y), float(z)) }
        }
    };
    assert_eq!([*n0, *n1, *n2, *n3], [HELD; 4], "{call:x?} wrote elsewhere");
    (number, [*x, *y, *z])
}

/// A refusal gives its number and zeros.
pub fn answer(result: Result<[u32; 3], u32>) -> Answer {
    result.map_or_else(|number| (number, [0; 3]), |words| (0, words))
}

pub fn oracle(call: Call) -> Answer {
    answer(match call {
        Call::Codes(p) => straight_scan::colour(p.map(f32::from_bits)).ok_or(9),
        Call::Floats(c) => straight_scan::shown(c).map(|p| p.map(f32::to_bits)),
    })
}

/// Where floats change their kind: zeros, subnormals, every power of two, infinities, NaNs; both signs.
pub fn boundaries() -> Vec<u32> {
    let powers = (0..23).map(|k| 1 << k).chain((1..=254).map(|e| e << 23));
    let others = [0, 0x007F_FFFF, 0x7F7F_FFFF, 0x7F80_0000, 0x7F80_0001, 0x7FA0_0000, 0x7FA5_5A5A];
    let quiet = [0x7FBF_FFFF, 0x7FC0_0000, 0x7FC0_0001, 0x7FD5_5A5A, 0x7FFF_FFFF];
    powers.chain(others).chain(quiet).flat_map(|bits: u32| [bits, bits | 0x8000_0000]).collect()
}
