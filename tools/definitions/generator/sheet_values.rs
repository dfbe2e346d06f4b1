//! Values of the definitions of sheets: columns, lines, headers, names, what is written and what walklist prints.

use crate::antt::{arguments, bytes, numbers, Output};
use crate::numbers::walklist::{MOST_LINES, MOST_READ};
use crate::numbers::*;
use crate::pseudo_random::{codes, tag};
use crate::random::Random;
use crate::sheets::{damaged_line, header, line, name, of_samples, sheet};
use crate::straight_scan::{self, Codes, Sample};
use crate::values::{value, Value};

/// The value of a function on a text, none being the empty list.
fn of_text(function: &str, text: &[u8], found: Option<Vec<u64>>) -> Value {
    let outcome = if found.is_some() { "some" } else { "none" };
    value(format!("{function} {}", bytes(text)), numbers(&found.unwrap_or_default()), outcome)
        .described(format!("{function} \"{}\"", text.escape_ascii()))
}

fn columns(random: &mut Random) -> Vec<Value> {
    let given = "| |0|00|01|10|     0|    00|999999|65535 |6 5535| +1|-1|4294967295|4294967296|9999999999|0000000001\
                 |          |         0|1|12a|\t1|1\n|0 | 0 |5:|5/";
    let mut columns: Vec<Vec<u8>> = given.split('|').map(|text| text.as_bytes().to_vec()).collect();
    for _ in 0..25 {
        let mut column = format!("{:>TAG_COLUMNS$}", random.word() >> random.below(32)).into_bytes();
        column[random.below(TAG_COLUMNS)] = random.one_of(b" 09/:\0\xFF");
        columns.push(column);
    }
    columns
        .iter()
        .map(|column| of_text("column_value", column, straight_scan::column(column).map(|n| vec![n])))
        .collect()
}

fn lines(random: &mut Random) -> Vec<Vec<u8>> {
    let mut lines = vec![vec![], vec![b' '; LINE_LENGTH], vec![b'0'; LINE_LENGTH]];
    // Numbers at the ends of their range and past them; tags of nines too, as many as there are columns and one fewer.
    let (most, wide) = (u128::from(MOST_TAG), 10_u128.pow(TAG_COLUMNS as u32));
    for tag in [0, 9, 10, wide / 10 - 1, most - 1, most, most + 1, most + 2, wide - 1] {
        lines.push(line(tag, [0, 10, 65_535], b"Z"));
    }
    let last = u64::from(MOST_CODE);
    for over in [last - 1, last, last + 1, last + 2, 99_999, 100_000, 999_999] {
        lines.extend([[over, 1, 2], [1, over, 2], [1, 2, over]].map(|codes| line(7, codes, b"Z")));
    }
    // Every byte of a line altered, of one with a short name and of one without a blank to spare.
    let short = line(120, [65_535, 7, 0], b"A001");
    let full = line(most, [65_535; 3], &[b'~'; NAME_COLUMNS]);
    for at in 0..LINE_LENGTH {
        for (good, byte) in [(&short, b' '), (&short, b'0'), (&short, b'\n'), (&full, random.one_of(b" !\x7F91"))] {
            let mut altered = good.clone();
            altered[at] = byte;
            lines.push(altered);
        }
    }
    for _ in 0..40 {
        let (tag, codes) = (tag(random), codes(random));
        lines.push(damaged_line(random, tag, codes));
    }
    for change in [Vec::pop, |l: &mut Vec<u8>| Some(l.remove(0))] {
        let mut shorter = short.clone();
        change(&mut shorter);
        lines.push(shorter);
    }
    lines.push([&short[..], b"\n"].concat());
    lines.push([b" ", &short[..]].concat());
    lines
}

fn line_value(line: &Vec<u8>) -> Value {
    let said = straight_scan::line(line).map(|(sample, name_length)| {
        let [red, green, blue] = sample.codes.map(u64::from);
        vec![sample.tag as u64, red, green, blue, name_length as u64]
    });
    of_text("line_value", line, said)
}

fn sheets(random: &mut Random) -> Vec<Vec<u8>> {
    let mut sheets: Vec<Vec<u8>> =
        ["", "SWATCHES", "SWATCHES     0", "SWATCHES000000\n", "SWATCHES     0\n\n", "SWATCHES\n"]
            .map(|text| text.as_bytes().to_vec())
            .to_vec();
    sheets.extend([header(0), header(1), header("-0"), header("0     ")]);
    for _ in 0..20 {
        let samples: Vec<Sample> =
            (0..random.below(5)).map(|_| Sample { tag: 5 + random.below(3) as Tag, codes: codes(random) }).collect();
        sheets.push(of_samples(random, &samples));
    }
    // Each line of three damaged in turn, with a tag that stands twice: a bad line anywhere leaves no name.
    for damaged in 0..4 {
        for _ in 0..4 {
            let mut lines: Vec<Vec<u8>> = [4, 5, 5].map(|tag| line(tag, [1, 2, 3], &name(random))).to_vec();
            if damaged < 3 {
                lines[damaged] = damaged_line(random, 7, [1, 2, 3]);
            }
            sheets.push(sheet(&lines));
        }
    }
    sheets
}

fn name_value(sheet: &[u8], tag: Tag) -> Value {
    let part = straight_scan::name_of(sheet, tag);
    let name = sheet[part.clone()].iter().map(|&b| b as u64);
    let said: Vec<u64> = [part.start as u64, part.len() as u64].into_iter().chain(name).collect();
    let outcome = if part.is_empty() { "empty" } else { "found" };
    value(format!("name_value {} {tag}", bytes(sheet)), numbers(&said), outcome)
        .described(format!("name of {tag} in \"{}\"", sheet.escape_ascii()))
}

fn write_value(random: &mut Random, colour: Codes, name: &[u8], length: usize) -> Value {
    let tag = tag(random);
    let lent: Vec<u8> = (0..length).map(|_| random.below(256) as u8).collect();
    let mut left = lent.clone();
    let number = straight_scan::write_line(tag, colour, name, &mut left);
    let computed = format!("write_value (sample {tag} {}) {} {}", arguments(&colour), bytes(name), bytes(&lent));
    let described = format!("write {tag} {colour:?} \"{}\" over {length} bytes", name.escape_ascii());
    value(computed, format!("({number} ∷ {})", bytes(&left)), number).described(described)
}

/// Where two questions say no, the first is the number: bad names come with short lengths, and bad colours with both.
fn writes(random: &mut Random) -> Vec<Value> {
    let long = [b'A'; NAME_COLUMNS + 8];
    let (good, over) = (&long[..NAME_COLUMNS], &long[..NAME_COLUMNS + 1]);
    let names: [&[u8]; 10] = [b"A001", b"!", b"~", b"A=9", good, over, &long, b"", b"A B", b"A\x7F"];
    let mut values = Vec::new();
    for name in names {
        for length in [0, LINE_LENGTH - 1, LINE_LENGTH, LINE_LENGTH + 1, LINE_LENGTH + 8] {
            let colour = codes(random);
            values.push(write_value(random, colour, name, length));
        }
        for colour in [[MOST_CODE + 1, 0, 0], [0, MOST_CODE + 1, 0], [0, 0, u32::MAX]] {
            let length = random.one_of(&[LINE_LENGTH - 1, LINE_LENGTH]);
            values.push(write_value(random, colour, name, length));
        }
    }
    values
}

fn walklists(random: &mut Random) -> Vec<Value> {
    let mut sheets = sheets(random);
    let mut samples = Vec::new();
    for k in 0..12 {
        samples.push(line(100 - k, codes(random).map(u64::from), &name(random)));
    }
    sheets.push(sheet(&samples));
    let compared = |input: &Vec<u8>, term: String| {
        let printed = straight_scan::walklist(input);
        let outcome = if printed.starts_with("REFUSED") { "refused" } else { "listed" };
        value(format!("walklist_prints {term}"), bytes(printed.as_bytes()), outcome)
            .described(format!("walklist of \"{}\"", input[..input.len().min(200)].escape_ascii()))
    };
    let mut values: Vec<Value> = sheets.iter().map(|s| compared(s, bytes(s))).collect();
    // About as many bytes as are read: past them all is cut off.
    let lengths = [sheet_length(MOST_LINES), MOST_READ, MOST_READ + 1];
    let most = lengths.map(|length| (MOST_LINES, length)).into_iter();
    for (count, length) in most.chain([(MOST_LINES + 1, sheet_length(MOST_LINES + 1))]) {
        let (head, blanks) = (header(count), length - HEADER_LENGTH);
        let input = [&head[..], &vec![b' '; blanks]].concat();
        values.push(compared(&input, format!("({} ++ replicate {blanks} 32)", bytes(&head))));
    }
    values
}

pub fn all(output: &mut Output, random: &mut Random) {
    let sheets = sheets(random);
    let count = |sheet: &Vec<u8>| of_text("count_value", sheet, straight_scan::header(sheet).map(|n| vec![n as u64]));
    let names = sheets.iter().flat_map(|s| [4, 5, 7].map(|tag| name_value(s, tag)));
    output.module();
    output.values("column_number", &columns(random));
    output.values("line_count", &sheets.iter().map(count).collect::<Vec<_>>());
    output.values("line_of", &lines(random).iter().map(line_value).collect::<Vec<_>>());
    output.values("name_part", &names.collect::<Vec<_>>());
    output.values("write_line", &writes(random));
    output.values("walklist_prints", &walklists(random));
}
