//! Sheets as text, whatever they are given.

#![allow(dead_code)]

pub mod edits;

use crate::numbers::*;
use std::fmt::Display;

/// The longest name.
pub const LONG_NAME: &str = "!2345678901234567890123456789012";

/// A line with these in its columns.
pub fn line_of(tag: impl Display, codes: [impl Display; 3], name: &str) -> Vec<u8> {
    let [red, green, blue] = codes;
    let codes = format!("{red:>CODE_COLUMNS$}{green:>CODE_COLUMNS$}{blue:>CODE_COLUMNS$}");
    format!("{tag:>TAG_COLUMNS$}{codes} {name:<NAME_COLUMNS$}\n").into_bytes()
}

/// A sheet that says so many lines and has these.
pub fn sheet_of(count: impl Display, lines: &[Vec<u8>]) -> Vec<u8> {
    [format!("{TITLE}{count:>COUNT_COLUMNS$}\n").as_bytes(), &lines.concat()].concat()
}

/// A good sheet, where the lines are.
pub fn good_sheet(lines: &[Vec<u8>]) -> Vec<u8> {
    sheet_of(lines.len(), lines)
}

/// Three good lines with short and long numbers and names.
pub fn three_lines() -> Vec<Vec<u8>> {
    vec![
        line_of(7, [0, 10, MOST_CODE], "A001"),
        line_of(MOST_TAG, [MOST_CODE, 999, 1_000], LONG_NAME),
        line_of(0, [9, MOST_CODE, 0], "~"),
    ]
}
