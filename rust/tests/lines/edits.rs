//! Sheets altered at random: a byte, two bytes or a line.

use crate::lines::sheet_of;
use crate::numbers::*;
use crate::random::*;

/// A digit for a digit, a name byte for another; what else stands there stays.
pub fn alike(byte: u8, state: &mut u64) -> u8 {
    match byte {
        b'0'..=b'9' => b'0' + below(10, state) as u8,
        33..=126 => 33 + below(94, state) as u8,
        _ => byte,
    }
}

/// The number of whole lines after a header's bytes.
pub fn room(sheet: &[u8]) -> usize {
    sheet.len().saturating_sub(HEADER_LENGTH) / LINE_LENGTH
}

/// A header put first that says how many lines there are.
pub fn recount(sheet: &mut [u8]) {
    if sheet.len() >= HEADER_LENGTH {
        let header = sheet_of(room(sheet), &[]);
        sheet[..HEADER_LENGTH].copy_from_slice(&header);
    }
}

/// One edit of a sheet: a byte, two bytes or a line.
pub fn edit(sheet: &mut Vec<u8>, state: &mut u64) {
    if sheet.is_empty() {
        return;
    }
    let [at, other] = [0; 2].map(|_: usize| below(sheet.len(), state));
    let lines = room(sheet);
    let start = sheet_length(below(lines.max(1), state));
    let line = start..start + LINE_LENGTH;
    match below(10, state) {
        0 => sheet[at] = random(state) as u8,
        1 => _ = sheet.remove(at),
        2 => sheet.insert(at, any_of(b" \n0A", state)),
        3 => sheet.swap(at, other),
        4 if lines > 0 => _ = sheet.drain(line),
        5 if lines > 0 => sheet.extend_from_within(line),
        6 if lines > 0 => sheet.copy_within(line, HEADER_LENGTH),
        _ => sheet[at] = alike(sheet[at], state),
    }
}

/// One to three edits, and of four sheets three with a header that says how many lines there then are.
pub fn edited(mut sheet: Vec<u8>, state: &mut u64) -> Vec<u8> {
    (0..=below(3, state)).for_each(|_| edit(&mut sheet, state));
    if below(4, state) > 0 {
        recount(&mut sheet);
    }
    sheet
}

/// The tags that a sheet's lines have, good or not.
pub fn tags_in(sheet: &[u8]) -> Vec<Tag> {
    let lines = sheet.get(HEADER_LENGTH..).unwrap_or_default().chunks_exact(LINE_LENGTH);
    lines.filter_map(|line| crate::straight_scan::column(&line[..TAG_COLUMNS])?.try_into().ok()).collect()
}
