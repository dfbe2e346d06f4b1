//! A call of a day, compared with the straight scan, and shown in full where the comparison fails.

use super::seen::{Plain, Seen};
use crate::compared::{check, Tables};
use crate::numbers::Tag;
use crate::plain::{colour, sheet};
use crate::straight_scan::{Call, Gesture};

/// One of the twelve calls with its arguments. The tables are those of the day.
#[derive(Clone)]
pub enum Step {
    Change(Call),
    Query(Gesture, Vec<Tag>),
    Check,
    Colour(colour::Call),
    Line { tag: Tag, codes: [u32; 3], name: Vec<u8>, lent: usize },
    Name { sheet: Vec<u8>, tag: Tag },
}

/// The floats of a query, in their sequence.
pub fn floats_of(query: &Gesture) -> Vec<f32> {
    match query {
        Gesture::Ball { centre, radius } | Gesture::Near { centre, radius } => [&centre[..], &[*radius]].concat(),
        Gesture::Box { low, high } => [low, &high[..]].concat(),
    }
}

fn compare_colour(call: colour::Call, seen: &mut Seen) {
    let (given, expected) = (colour::library(call), colour::oracle(call));
    assert_eq!(given, expected, "the library on {call:x?}");
    let which = if let colour::Call::Codes(_) = call { Plain::Codes } else { Plain::Floats };
    seen.count(which, expected.0);
}

fn compare_sheet(call: sheet::Call, seen: &mut Seen) {
    let (given, expected) = (sheet::library(call), sheet::oracle(call));
    assert_eq!(given, expected, "the library on {call:?}");
    match expected {
        sheet::Answer::Line(number, _) => seen.count(Plain::Line, number),
        sheet::Answer::Name(part) => seen.count(if part.is_empty() { Plain::NameNone } else { Plain::NameFound }, 0),
    }
}

fn compare_check(tables: &Tables, seen: &mut Seen) {
    let sound = tables.set.is_ok();
    assert_eq!(check::through_c(&tables.samples, &tables.octants), sound, "whether the tables are sound");
    seen.count(if sound { Plain::Sound } else { Plain::NotSound }, 0);
}

impl Step {
    /// The one comparison of a step. The tables become those that the call leaves. Gives how many tags it listed.
    pub fn compare(&self, tables: &mut Tables, seen: &mut Seen) -> usize {
        match self {
            Step::Change(call) => _ = seen.compared.call(tables, call),
            Step::Query(query, lent) => return seen.compared.query(tables, query, lent).listed as usize,
            Step::Check => compare_check(tables, seen),
            Step::Colour(call) => compare_colour(*call, seen),
            Step::Line { tag, codes, name, lent } => {
                compare_sheet(sheet::Call::Line { tag: *tag, codes: *codes, name, lent: *lent }, seen)
            }
            Step::Name { sheet, tag } => compare_sheet(sheet::Call::Name { sheet, tag: *tag }, seen),
        }
        0
    }

    /// The call with all that it is given.
    pub fn in_full(&self, tables: &Tables) -> String {
        let on_tables = || {
            let state = match &tables.set {
                Ok(_) => "sound",
                Err(1) => "too short",
                Err(_) => "not sound",
            };
            format!("on tables that are {state}: {}\nand {}", in_full(&tables.samples), in_full(&tables.octants))
        };
        match self {
            Step::Change(Call::Load(sheet)) => format!("load of \"{}\" {}", sheet.escape_ascii(), on_tables()),
            Step::Change(call) => format!("{call:?} {}", on_tables()),
            Step::Query(query, lent) => {
                let bits: Vec<String> = floats_of(query).iter().map(|v| format!("{:#010x}", v.to_bits())).collect();
                let bits = bits.join(", ");
                format!("{query:?}, by bits {bits}, with a listing of {} words, {}", lent.len(), on_tables())
            }
            Step::Check => format!("check {}", on_tables()),
            Step::Colour(call) => format!("{call:x?}, by bits"),
            Step::Line { tag, codes, name, lent } => {
                format!("line of {:?}", sheet::Call::Line { tag: *tag, codes: *codes, name, lent: *lent })
            }
            Step::Name { sheet, tag } => format!("name of {:?}", sheet::Call::Name { sheet, tag: *tag }),
        }
    }
}

/// Every word of a table; zeros at its end are counted.
fn in_full(table: &[u32]) -> String {
    let used = table.iter().rposition(|&word| word != 0).map_or(0, |last| last + 1);
    format!("{:?} and {} zeros, {} words", &table[..used], table.len() - used, table.len())
}
