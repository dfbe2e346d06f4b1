//! Calls that change sets, at random: colours, tags and sheets for them, some of which are refused.

#![allow(dead_code)]

use crate::compared::Tables;
use crate::lines::*;
use crate::numbers::*;
use crate::random::*;
use crate::sets::*;
use crate::straight_scan::{Bin, Call, Codes, Sample};

/// The bucket sizes of these tests.
pub const SIZES: [u32; 5] = [1, 2, 16, MOST_BUCKET - 1, MOST_BUCKET];

pub fn line(sample: Sample) -> Vec<u8> {
    line_of(sample.tag, sample.codes, "A001")
}

/// A good sheet of samples.
pub fn sheet(samples: &[Sample]) -> Vec<u8> {
    good_sheet(&samples.iter().map(|&sample| line(sample)).collect::<Vec<_>>())
}

/// Texts that are no number up to the greatest: over it by one, the greatest that fits the columns, and these.
fn bad_numbers(most: u128, columns: usize, others: &[&str]) -> Vec<String> {
    let over = [(most + 1).to_string(), "9".repeat(columns)];
    over.into_iter().chain(others.iter().map(|text| text.to_string())).collect()
}

/// Lines that are not good, each by one thing: a number out of range or not so formed, a name, what stands
/// between and after.
pub fn bad_lines(sample: Sample) -> Vec<Vec<u8>> {
    let Sample { tag, codes } = sample;
    let with = |at: usize, byte: u8| {
        let mut altered = line(sample);
        altered[at] = byte;
        altered
    };
    let code = |channel: usize, text: &str| {
        let mut texts = codes.map(|code| code.to_string());
        texts[channel] = text.to_string();
        line_of(tag, texts, "A001")
    };
    let tag_texts = bad_numbers(MOST_TAG.into(), TAG_COLUMNS, &["007", "", "-7", "7 "]);
    let code_texts = bad_numbers(MOST_CODE.into(), CODE_COLUMNS, &["01", "", "1 "]);
    let tags = tag_texts.iter().map(|text| line_of(text, codes, "A001"));
    let channels = (0..3).flat_map(|h| code_texts.iter().map(move |text| (h, text))).map(|(h, text)| code(h, text));
    let names = ["", "A 1", " A1", "A\x7F", "A\t"].map(|name| line_of(tag, codes, name));
    let (blank, last, newline) = (NAME_START - 1, LINE_LENGTH - 2, LINE_LENGTH - 1);
    let between = [with(blank, b'.'), with(newline, b' '), with(newline, b'\r'), with(last, b'!'), with(0, b'+')];
    tags.chain(channels).chain(names).chain(between).collect()
}

/// Colours of one kind, at most so many: anywhere, around a few, all equal, on the planes between octants, in pairs
/// that part at the last depth, in a few of the smallest octants.
pub fn pool(most: usize, state: &mut u64) -> Vec<Codes> {
    let seed = random(state);
    match below(6, state) {
        0 => scattered(most, seed),
        1 => clustered(most, 3, 40, seed),
        2 => scattered(1, seed),
        3 => grid(&[0, 16_383, 16_384, 32_767, 32_768, MOST_CODE]),
        4 => close_pairs(most / 10, seed),
        _ => clustered(most, 2, 3, seed),
    }
}

/// A set of so many of these colours, in tables that have at most so many rows more.
pub fn any_set(samples: usize, colours: &[Codes], more_rows: usize, more_octants: usize, state: &mut u64) -> Tables {
    let samples = tagged((0..samples).map(|_| any_of(colours, state)));
    let bin = exact(&samples, any_of(&SIZES, state));
    let more = |rows: usize, width: usize, state: &mut u64| width * below(rows + 1, state) + below(width, state);
    let (s, o) = (more(more_rows, SAMPLE_ROW, state), more(more_octants, OCTANT_ROW, state));
    Tables::of(longer(&bin, s, o))
}

/// The i-th of tags that are the same but for their highest bits.
pub fn high_tag(i: usize) -> Tag {
    (i as Tag) << (Tag::BITS - MOST_SAMPLES.ilog2())
}

/// A tag that is not in the set.
pub fn new_tag(bin: &Bin, state: &mut u64) -> Tag {
    let tag = match below(5, state) {
        0 => below(100, state) as Tag,
        1 => any_of(&[0, 1, 1 << (Tag::BITS - 1), MOST_TAG - 1, MOST_TAG], state),
        2 => high_tag(below(MOST_SAMPLES, state)),
        _ => random(state) as Tag,
    };
    if bin.samples.iter().any(|sample| sample.tag == tag) {
        return new_tag(bin, state);
    }
    tag
}

/// A tag of the set; any where it is empty.
pub fn known_tag(bin: &Bin, state: &mut u64) -> Tag {
    match bin.samples.len() {
        0 => random(state) as Tag,
        n => bin.samples[below(n, state)].tag,
    }
}

/// A sheet, most lines of which can be added: of three, one has a line that is not good, or that has a tag of the
/// set or of an earlier line; of eight, one has a header that is not good.
pub fn any_sheet(bin: &Bin, colours: &[Codes], most_lines: usize, state: &mut u64) -> Vec<u8> {
    let sample = |state: &mut u64| Sample { tag: new_tag(bin, state), codes: any_of(colours, state) };
    let mut samples: Vec<Sample> = (0..below(most_lines + 1, state)).map(|_| sample(state)).collect();
    let (n, kind) = (samples.len(), below(9, state));
    if n > 0 && kind == 0 {
        samples[below(n, state)].tag = known_tag(bin, state);
    }
    if n > 0 && kind == 1 {
        samples[below(n, state)].tag = samples[below(n, state)].tag;
    }
    let name = any_of(&["A001", "~", LONG_NAME], state);
    let mut lines: Vec<Vec<u8>> = samples.iter().map(|s| line_of(s.tag, s.codes, name)).collect();
    if n > 0 && kind == 2 {
        let at = below(n, state);
        let bad = bad_lines(samples[at]);
        lines[at] = bad[below(bad.len(), state)].clone();
    }
    let mut sheet = good_sheet(&lines);
    match below(32, state) {
        0 => sheet[below(HEADER_LENGTH, state)] = random(state) as u8,
        1 => _ = sheet.pop(),
        2 => sheet.push(b'\n'),
        3 => sheet = sheet_of(n + 1, &lines),
        _ => {}
    }
    sheet
}

pub fn any_call(bin: &Bin, colours: &[Codes], most_lines: usize, growing: bool, state: &mut u64) -> Call {
    if below(80, state) == 0 {
        return Call::Clear(any_of(&[0, 1, 2, 16, MOST_BUCKET - 1, MOST_BUCKET, MOST_BUCKET + 1], state));
    }
    let seldom = below(8, state) == 0;
    let (removes, loads) = if growing { (3, 8) } else { (11, 12) };
    match below(16, state) {
        k if k < removes && seldom => Call::Remove(new_tag(bin, state)),
        k if k < removes => Call::Remove(known_tag(bin, state)),
        k if k < loads => Call::Load(any_sheet(bin, colours, most_lines, state)),
        _ => {
            let mut codes = any_of(colours, state);
            if below(16, state) == 0 {
                codes[below(3, state)] = any_of(&[MOST_CODE + 1, 1 << 31, u32::MAX], state);
            }
            let tag = if seldom { known_tag(bin, state) } else { new_tag(bin, state) };
            Call::Add(tag, codes)
        }
    }
}
