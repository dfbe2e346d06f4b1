//! Terms and declarations of antt, for the harness.

use crate::calls::{describe, kind, Sequence};
use crate::straight_scan::{start, Call, Gesture};
use crate::values::Value;
use std::collections::BTreeMap;
use std::fmt::Write;

const HEAD: &str = "\
use Rattle.std.specs.Prelude.{◌≡◌, refl, List, [], ◌∷◌, ◌++◌, replicate}
use Rattle.colour.specs.Key.{key}
use Rattle.model.specs.Computes.{computes}
use Rattle.model.specs.Walklist.{walklist_prints}
use Rattle.vectors.specs.Harness.{words, bytes, panel, colour, sample, harness}
use Rattle.vectors.specs.Harness.{clear, add, load, remove, ball, nearest, box, Expected, expect, AsBefore, Words, sequence_part}
use Rattle.vectors.specs.Harness.{Value, value, values_part, number, column_value, count_value, line_value, write_value}
use Rattle.vectors.specs.Harness.{name_value, codes_value, floats_value, panel_numbers, rows_value, start_number, bit_of}
";

/// What is generated: modules of declarations, what each call or value is, and how many were compared. Where names are
/// given, only those lists, to be read off bit by bit.
#[derive(Default)]
pub struct Output {
    pub only: Vec<String>,
    pub modules: Vec<String>,
    pub index: String,
    pub counts: BTreeMap<(&'static str, String), u64>,
}

fn packed(bytes: &[u8]) -> String {
    let digits: String = bytes.iter().rev().map(|b| format!("{b:02X}")).collect();
    match digits.trim_start_matches('0') {
        "" => "0".to_string(),
        digits => format!("0x{digits}"),
    }
}

pub fn bytes(bytes: &[u8]) -> String {
    format!("(bytes {} {})", bytes.len(), packed(bytes))
}

pub fn words(words: &[u32]) -> String {
    let bytes: Vec<u8> = words.iter().flat_map(|w| w.to_le_bytes()).collect();
    format!("(words {} {})", words.len(), packed(&bytes))
}

pub fn numbers(numbers: &[u64]) -> String {
    format!("({}[])", numbers.iter().map(|n| format!("{n} ∷ ")).collect::<String>())
}

/// Arguments, one after the other.
pub fn arguments(numbers: &[u32]) -> String {
    numbers.iter().map(u32::to_string).collect::<Vec<_>>().join(" ")
}

fn call(call: &Call) -> String {
    let bits = |p: &[f32; 3]| arguments(&p.map(f32::to_bits));
    match call {
        Call::Clear(bucket) => format!("(clear {bucket})"),
        Call::Load(sheet) => format!("(load {})", bytes(sheet)),
        Call::Add(tag, codes) => format!("(add {tag} {})", arguments(codes)),
        Call::Remove(tag) => format!("(remove {tag})"),
        Call::Pick(query, listing) => match query {
            Gesture::Ball { centre, radius } | Gesture::Near { centre, radius } => {
                format!("({} {} {} {})", kind(call), bits(centre), radius.to_bits(), words(listing))
            }
            Gesture::Box { low, high } => format!("(box {} {} {})", bits(low), bits(high), words(listing)),
        },
    }
}

/// The bits of the three numbers that say where two part: a call or value, what or a word, a word.
const BITS: [usize; 3] = [6, 11, 11];

fn theorem(name: &str, list: &str, statement: String) -> String {
    format!("\npub {name} : {statement}\nunfolding computes harness {list}\n{name} = refl\n")
}

impl Output {
    pub fn module(&mut self) {
        self.modules.push(HEAD.to_string());
    }

    /// A list under a name, and that comparing it gives [], or the theorems that its bits are 0.
    fn declare(&mut self, name: &str, of: &str, entries: &[String], compared: &str) {
        let list: String = entries.iter().map(|entry| format!("  {entry} ∷\n")).collect();
        let mut text = format!("\nunfoldable pub {name} : List {of}\n{name} =\n{list}  []\n");
        if self.only.is_empty() {
            text += &theorem(&format!("{name}-agrees"), name, format!("{compared} {name} ≡ []"));
        } else if self.only.iter().any(|only| only == name) {
            for (k, bits) in BITS.into_iter().enumerate() {
                for i in 0..bits {
                    let statement = format!("bit_of {k} {i} ({compared} {name}) ≡ 0");
                    text += &theorem(&format!("{name}-bit-{k}-{i}"), name, statement);
                }
            }
        } else {
            return;
        }
        self.modules.last_mut().expect("a module").push_str(&text);
    }

    fn count(&mut self, kind: &'static str, outcome: impl ToString) {
        // So padded, numbers stand in their order.
        *self.counts.entry((kind, format!("{:>2}", outcome.to_string()))).or_default() += 1;
    }

    /// A sequence, with all that the straight scan says of each call.
    pub fn sequence(&mut self, sequence: &Sequence) {
        let Sequence { name, bucket, sample_words, octant_words, calls } = sequence;
        let mut set = start(*sample_words, *octant_words, *bucket).expect("a first clear that is accepted");
        let mut tables = set.tables();
        let (samples, octants) = (words(&tables.0), words(&tables.1));
        let compared = format!("sequence_part {bucket} {sample_words} {octant_words} {samples} {octants}");
        self.count("first clear", 0);
        writeln!(self.index, "{name}\t0\tcall\tthe first clear, bucket size {bucket}").unwrap();
        let mut entries = Vec::new();
        for (k, made) in calls.iter().enumerate() {
            let answer = set.call(made);
            let left = set.tables();
            let left_term = if left == tables {
                "AsBefore".to_string()
            } else {
                format!("(Words {} {})", words(&left.0), words(&left.1))
            };
            tables = left;
            let a = &answer;
            let fields = [a.number, a.taken, a.listed, a.entered, a.measured, a.found as u32, a.tag].map(u64::from);
            let answered = numbers(&[&fields[..], &[a.d2]].concat());
            entries.push(format!("expect {} {answered} {} {left_term}", call(made), words(&a.listing)));
            self.count(kind(made), answer.number);
            writeln!(self.index, "{name}\t{}\tcall\t{}", k + 1, describe(made)).unwrap();
        }
        self.declare(name, "Expected", &entries, &compared);
    }

    /// Values of one definition, a few to a declaration.
    pub fn values(&mut self, definition: &'static str, values: &[Value]) {
        for (part, few) in values.chunks(25).enumerate() {
            let name = format!("{definition}-{}", part + 1);
            for (k, value) in few.iter().enumerate() {
                self.count(definition, &value.outcome);
                writeln!(self.index, "{name}\t{}\tvalue\t{}", k + 1, value.described).unwrap();
            }
            let entries: Vec<String> = few.iter().map(|v| format!("value ({}) {}", v.computed, v.expected)).collect();
            self.declare(&name, "Value", &entries, "values_part 1");
        }
    }
}
