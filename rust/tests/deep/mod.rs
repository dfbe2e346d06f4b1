//! Tables that lead down to the last depth by one way alone, or to one row again and again, and corners to ask from: a
//! query takes most of the stack if it goes down as far, whatever children it meets first.

#![allow(dead_code)]

use crate::numbers::*;
use crate::sets::*;
use crate::straight_scan::Codes;

/// A sample table and an octant table.
pub type Words = (Vec<u32>, Vec<u32>);

/// The depths of octants, from the whole to single colours.
pub const DEPTHS: usize = CODE_COUNT.trailing_zeros() as usize + 1;

/// Corners of the whole, corners next to its middle, and all between these.
pub fn corners() -> impl Iterator<Item = Codes> {
    grid(&[0, CODE_COUNT as u32 / 2 - 1, CODE_COUNT as u32 / 2, MOST_CODE]).into_iter()
}

/// Sound tables of two samples in a corner that part at the last depth. If a centre is across from it, the closest child
/// is empty in each octant on the way down to them.
pub fn lone_pairs() -> Vec<Words> {
    let pair = |[red, green, blue]: Codes| [[red, green, blue], [red ^ 1, green, blue]];
    corners().map(|corner| exact(&tagged(pair(corner)), 1).tables()).collect()
}

/// One sample, and octant rows with these children. Each row says that it has as many samples as a word can say, from
/// that one on, so it is measured at the last depth alone. These are no sound tables.
fn leading(rows: usize, children: impl Fn(usize) -> [u32; 8]) -> Words {
    let samples = [&sample_header(1, 1)[..], &sample_row(1, [MOST_CODE; 3], 0)].concat();
    let row = |row: usize| octant_row(0, 0, u32::MAX, children(row));
    let octants = octant_header(rows as u32).into_iter().chain((0..rows).flat_map(row)).collect();
    (samples, octants)
}

/// A row for each depth, which leads on to the next: by one child alone, the same each time or each of the eight in turn;
/// the last tables by all eight.
pub fn chains() -> Vec<Words> {
    let by_one = |k: usize, next: u32| [0, 1, 2, 3, 4, 5, 6, 7].map(|child| if child == k { next } else { 0 });
    let same = (0..8).map(|k| leading(DEPTHS, |row| by_one(k, row as u32 + 1)));
    let turned = (0..8).map(|k| leading(DEPTHS, |row| by_one((row + k) % 8, row as u32 + 1)));
    same.chain(turned).chain([leading(DEPTHS, |row| [row as u32 + 1; 8])]).collect()
}

/// Each child is the same row, the first that can be one, in tables of many rows: as many octants may be entered.
pub fn leading_back() -> Words {
    leading(MOST_OCTANTS, |_| [1; 8])
}
