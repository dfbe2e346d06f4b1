//! Lines written, and names looked up.

use crate::lent::Lent;
use crate::numbers::Tag;
use crate::straight_scan;
use hubeltxa::raw;
use std::ops::Range;

/// A call with its arguments. A line is written over a buffer of `lent` bytes.
#[derive(Clone, Copy)]
pub enum Call<'a> {
    Line { tag: Tag, codes: [u32; 3], name: &'a [u8], lent: usize },
    Name { sheet: &'a [u8], tag: Tag },
}

impl std::fmt::Debug for Call<'_> {
    fn fmt(&self, f: &mut std::fmt::Formatter) -> std::fmt::Result {
        match self {
            Call::Line { tag, codes, name, lent } => {
                write!(f, "{tag} {codes:?} \"{}\" over {lent} bytes", name.escape_ascii())
            }
            Call::Name { sheet, tag } => write!(f, "{tag} in \"{}\"", sheet.escape_ascii()),
        }
    }
}

/// What a call gives: its number and the whole buffer as left, or where in the sheet the name stands.
#[derive(Debug, PartialEq, Eq)]
pub enum Answer {
    Line(u32, Vec<u8>),
    Name(Range<usize>),
}

/// A buffer for a line. It holds no byte that a line could have, so every byte that is written shows.
pub fn buffer(lent: usize) -> Vec<u8> {
    (0..lent).map(|i| 128 + (i % 128) as u8).collect()
}

/// The C function, on guarded bytes, and on words that hold something else and have neighbours.
pub fn library(call: Call) -> Answer {
    match call {
        Call::Line { tag, codes: [red, green, blue], name, lent } => {
            let (mut text, mut line) = (Lent::new(name), Lent::new(&buffer(lent)));
            let (n, l) = (text.within(), line.within());
            let number = unsafe { raw::hbx_line(tag, red, green, blue, n.as_ptr(), n.len(), l.as_mut_ptr(), l.len()) };
            assert_eq!(text.left(), Some(name), "{call:?} changed the name or what is beside it");
            let left = line.left().unwrap_or_else(|| panic!("{call:?} wrote elsewhere"));
            Answer::Line(number, left.to_vec())
        }
        Call::Name { sheet, tag } => {
            const HELD: usize = 0xA5A5_A5A5_A5A5_A5A5;
            let mut words = [HELD; 5];
            let [n0, start, n1, length, n2] = &mut words;
            let mut text = Lent::new(sheet);
            let s = text.within();
            unsafe { raw::hbx_name(s.as_ptr(), s.len(), tag, start, length) };
            assert_eq!([*n0, *n1, *n2], [HELD; 3], "{call:?} wrote elsewhere");
            assert!(text.left() == Some(sheet), "{call:?} changed the sheet or what is beside it");
            assert!(*length > 0 || *start == 0, "{call:?} gives an empty part at {start}");
            Answer::Name(*start..*start + *length)
        }
    }
}

pub fn oracle(call: Call) -> Answer {
    match call {
        Call::Line { tag, codes, name, lent } => {
            let mut line = buffer(lent);
            Answer::Line(straight_scan::write_line(tag, codes, name, &mut line), line)
        }
        Call::Name { sheet, tag } => Answer::Name(straight_scan::name_of(sheet, tag)),
    }
}
