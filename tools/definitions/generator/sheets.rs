//! Sheets: good ones, and ones that are damaged in a line, in the header or in length.

use crate::numbers::*;
use crate::random::Random;
use crate::straight_scan::{Codes, Sample};
use std::fmt::Display;
use std::ops::Range;

/// The columns of a name, and the place of the newline after them.
const NAME: Range<usize> = NAME_START..NEWLINE;
const NEWLINE: usize = LINE_LENGTH - 1;

/// The columns of a count in a header.
const COUNT: Range<usize> = TITLE.len()..HEADER_LENGTH - 1;

fn code_columns(channel: usize) -> Range<usize> {
    code_start(channel)..code_start(channel + 1)
}

pub fn header(count: impl Display) -> Vec<u8> {
    format!("{TITLE}{count:>COUNT_COLUMNS$}\n").into_bytes()
}

/// A line. The numbers may be out of range, as long as they fit their columns.
pub fn line(tag: u128, codes: [u64; 3], name: &[u8]) -> Vec<u8> {
    let codes = codes.map(|code| format!("{code:>CODE_COLUMNS$}")).concat();
    let mut line = format!("{tag:>TAG_COLUMNS$}{codes} ").into_bytes();
    line.extend(name);
    line.resize(NEWLINE, b' ');
    line.push(b'\n');
    line
}

pub fn sheet(lines: &[Vec<u8>]) -> Vec<u8> {
    let mut sheet = header(lines.len());
    sheet.extend(lines.concat());
    sheet
}

/// A good name, often as long as may be and of bytes at the ends of their range.
pub fn name(random: &mut Random) -> Vec<u8> {
    let length = match random.below(6) {
        0 => 1,
        1 => NAME_COLUMNS - 1,
        2 => NAME_COLUMNS,
        _ => 1 + random.below(8),
    };
    (0..length).map(|_| if random.once_in(4) { random.one_of(b"!~0A") } else { 33 + random.below(94) as u8 }).collect()
}

fn good_line(random: &mut Random, tag: Tag, codes: Codes) -> Vec<u8> {
    line(tag.into(), codes.map(u64::from), &name(random))
}

/// A line with one thing wrong; now and then the last two changes leave it good.
pub fn damaged_line(random: &mut Random, tag: Tag, codes: Codes) -> Vec<u8> {
    let codes = codes.map(u64::from);
    let mut bytes = line(tag.into(), codes, &name(random));
    match random.below(18) {
        0 => bytes = line(u128::from(MOST_TAG) + 1 + random.below(1000) as u128, codes, b"A"),
        1 => {
            let mut over = codes;
            over[random.below(3)] = random.one_of(&[u64::from(MOST_CODE) + 1, 99_999, 100_000, 999_999]);
            bytes = line(tag.into(), over, b"A");
        }
        2 => bytes[NEWLINE] = random.one_of(&[b' ', 13, 0, 11]),
        3 => bytes[NAME_START - 1] = random.one_of(&[0, b'0', 9, 10]),
        4 => bytes[NAME].fill(b' '),
        5 => bytes[NAME][..2].copy_from_slice(b" A"),
        6 => bytes[NAME_START] = random.one_of(&[0, 10, 31, 127, 128, 255]),
        7 => {
            bytes[NAME].fill(b'A');
            bytes[NAME][1 + random.below(NAME_COLUMNS - 2)] = b' ';
        }
        8 => {
            bytes[NAME].fill(b'B');
            bytes[NEWLINE - 1] = random.one_of(&[10, 31, 127]);
        }
        9 => bytes[..TAG_COLUMNS].copy_from_slice(format!("{tag:0TAG_COLUMNS$}").as_bytes()),
        10 => bytes[code_columns(0)].copy_from_slice(format!("{:0CODE_COLUMNS$}", codes[0]).as_bytes()),
        11 => bytes[code_columns(1)].copy_from_slice(format!("{:<CODE_COLUMNS$}", codes[1]).as_bytes()),
        12 => bytes[code_columns(2)].fill(b' '),
        13 => bytes[code_start(2)] = random.one_of(b"+-\t/:"),
        14 => bytes[TAG_COLUMNS - 1] = random.one_of(&[0, b' ', b'/', b':', 255]),
        15 => {
            let zeros = format!("{:>CODE_COLUMNS$}", random.one_of(&["00", "01"]));
            bytes[code_columns(2)].copy_from_slice(zeros.as_bytes());
        }
        16 => bytes[random.below(LINE_LENGTH)] = random.below(256) as u8,
        _ => bytes[random.below(LINE_LENGTH)] ^= 1 << random.below(8),
    }
    bytes
}

/// A sheet of these samples: a third have a damaged line, a third a damaged header or length.
pub fn of_samples(random: &mut Random, samples: &[Sample]) -> Vec<u8> {
    let damaged = if random.once_in(3) { random.below(samples.len() + 1) } else { samples.len() };
    let mut lines = Vec::new();
    for (k, sample) in samples.iter().enumerate() {
        let make = if k == damaged { damaged_line } else { good_line };
        lines.push(make(random, sample.tag, sample.codes));
    }
    let good = sheet(&lines);
    if random.once_in(3) {
        damaged_sheet(random, good, samples.len())
    } else {
        good
    }
}

fn damaged_sheet(random: &mut Random, mut sheet: Vec<u8>, count: usize) -> Vec<u8> {
    let length = sheet.len();
    let columns = |sheet: &mut Vec<u8>, text: String| sheet[COUNT].copy_from_slice(text.as_bytes());
    match random.below(14) {
        0 => sheet[random.below(TITLE.len())] ^= 0x20,
        1 => sheet[COUNT.end] = 13,
        2 => columns(&mut sheet, format!("{count:0COUNT_COLUMNS$}")),
        3 => columns(&mut sheet, format!("{count:<COUNT_COLUMNS$}")),
        4 => columns(&mut sheet, format!("{:>COUNT_COLUMNS$}", count + 1)),
        5 => columns(&mut sheet, format!("{:>COUNT_COLUMNS$}", count.saturating_sub(1))),
        6 => columns(&mut sheet, " ".repeat(COUNT_COLUMNS)),
        7 => columns(&mut sheet, "9".repeat(COUNT_COLUMNS)),
        8 => sheet[COUNT.start] = random.one_of(b"0+-\t"),
        9 => sheet[COUNT.end - 1] = random.one_of(b":/ \n\0"),
        10 => sheet.truncate(random.below(length)),
        11 => sheet.push(random.one_of(b"\n \0")),
        12 => sheet.extend([b' '; LINE_LENGTH]),
        _ => sheet[random.below(length)] = random.below(256) as u8,
    }
    sheet
}
