//! Lines written and names looked up, compared with the straight scan call by call.
//!
//! `cargo test --release` takes a few seconds.

#[path = "../../oracle/straight_scan.rs"]
#[allow(dead_code)]
#[rustfmt::skip]
mod straight_scan;

mod lent;
mod lines;
mod numbers;
mod plain;
mod random;

use lent::Lendable;
use lines::edits::{edited, recount, tags_in};
use lines::*;
use numbers::*;
use plain::sheet::*;
use random::{any_of, below, random};
use straight_scan::Sample;

/// A good line that stands in no sheet.
const GUARD: &[u8] = u8::GUARD;

fn wrapper(call: Call) -> Answer {
    match call {
        Call::Line { tag, codes, name, lent } => {
            let mut line = buffer(lent);
            let result = hubeltxa::write_line(tag, codes, name, &mut line);
            Answer::Line(result.err().map_or(0, u32::from), line)
        }
        Call::Name { sheet, tag } => {
            let found = hubeltxa::name(sheet, tag);
            // Where it stands in the caller's own slice.
            let start = (found.as_ptr() as usize).wrapping_sub(sheet.as_ptr() as usize);
            Answer::Name(start..start.wrapping_add(found.len()))
        }
    }
}

/// The one comparison: every input goes through it. Gives the answer, for tests that look at it.
fn compare(call: Call) -> Answer {
    let expected = oracle(call);
    assert_eq!(library(call), expected, "the library on {call:?}");
    assert_eq!(wrapper(call), expected, "the wrapper on {call:?}");
    expected
}

/// Writes a line, and gives the number and the buffer.
fn write(tag: Tag, codes: [u32; 3], name: &[u8], lent: usize) -> (u32, Vec<u8>) {
    match compare(Call::Line { tag, codes, name, lent }) {
        Answer::Line(number, line) => (number, line),
        Answer::Name(_) => unreachable!(),
    }
}

/// Looks a name up, and gives it.
fn look_up(sheet: &[u8], tag: Tag) -> &[u8] {
    match compare(Call::Name { sheet, tag }) {
        Answer::Name(range) => &sheet[range],
        Answer::Line(..) => unreachable!(),
    }
}

/// 0, each power of ten and one less, each power of two and one less and one more, the greatest.
fn edges() -> Vec<Tag> {
    let tens = (0..).map_while(|k| Tag::checked_pow(10, k)).flat_map(|p| [p - 1, p]);
    let twos = (0..Tag::BITS).map(|k| 1 << k).flat_map(|p: Tag| [p - 1, p, p + 1]);
    tens.chain(twos).chain([MOST_TAG - 1, MOST_TAG]).collect()
}

/// A tag, at an edge or anywhere; half of them small, so that some are equal.
fn any_tag(state: &mut u64) -> Tag {
    match random(state) >> 62 {
        0 => any_of(&edges(), state),
        1 => random(state) as Tag,
        _ => below(8, state) as Tag,
    }
}

fn any_code(state: &mut u64) -> u32 {
    let codes = [0, 9, 10, 99, 100, 999, 1_000, 9_999, 10_000, MOST_CODE - 1, MOST_CODE];
    match random(state) >> 63 {
        0 => any_of(&codes, state),
        _ => below(CODE_COUNT, state) as u32,
    }
}

/// A good name.
fn any_name(state: &mut u64) -> Vec<u8> {
    let length = any_of(&[1, 2, 4, 4, 4, 9, NAME_COLUMNS - 1, NAME_COLUMNS], state);
    (0..length).map(|_| 33 + below(94, state) as u8).collect()
}

fn any_line(state: &mut u64) -> Vec<u8> {
    let codes = [0; 3].map(|_: u32| any_code(state));
    write(any_tag(state), codes, &any_name(state), LINE_LENGTH).1
}

fn any_lines(count: usize, state: &mut u64) -> Vec<Vec<u8>> {
    (0..count).map(|_| any_line(state)).collect()
}

/// Good sheets, to be altered: of two lines, of three, and of two with equal tags.
fn sheets() -> [Vec<u8>; 3] {
    let same = [line_of("17", ["1", "2", "3"], "one"), line_of("17", ["1", "2", "3"], "other")];
    [good_sheet(&three_lines()[..2]), good_sheet(&three_lines()), good_sheet(&same)]
}

/// Looks up every tag of two sheets in the second, and one tag of neither.
fn look_up_all(before: &[u8], sheet: &[u8]) {
    let mut tags = [tags_in(before), tags_in(sheet)].concat();
    tags.sort_unstable();
    tags.dedup();
    tags.extend((0..).find(|tag| !tags.contains(tag)));
    tags.into_iter().for_each(|tag| _ = look_up(sheet, tag));
}

/// The sheet with other bytes from a place on, looked up.
fn look_up_with(sheet: &[u8], at: usize, bytes: &[u8]) {
    let mut altered = sheet.to_vec();
    altered[at..at + bytes.len()].copy_from_slice(bytes);
    look_up_all(sheet, &altered);
}

/// Every text of so many bytes out of these.
fn texts(bytes: &[u8], width: u32) -> impl Iterator<Item = Vec<u8>> + '_ {
    let digit = move |n: usize, k| bytes[n / bytes.len().pow(k) % bytes.len()];
    (0..bytes.len().pow(width)).map(move |n| (0..width).rev().map(|k| digit(n, k)).collect())
}

/// A text in a column, at its right, at its left and between.
fn columns(text: &str, width: usize) -> Vec<Vec<u8>> {
    let placed = [format!("{text:>width$}"), format!("{text:<width$}"), format!("{text:^width$}")];
    placed.map(String::into_bytes).into_iter().filter(|c| c.len() == width).collect()
}

/// Where the columns of the count and of line 0 start, and how many they are.
const COUNT: (usize, usize) = (TITLE.len(), COUNT_COLUMNS);
const TAG: (usize, usize) = (HEADER_LENGTH, TAG_COLUMNS);
const CODES: [(usize, usize); 3] = [code_columns(0), code_columns(1), code_columns(2)];
const NAME: (usize, usize) = (HEADER_LENGTH + NAME_START, NAME_COLUMNS);

const fn code_columns(channel: usize) -> (usize, usize) {
    (HEADER_LENGTH + code_start(channel), CODE_COLUMNS)
}

// Writing.

#[test]
fn names_written() {
    let name: Vec<u8> = (0..1_000).map(|i| 33 + (i * 7 % 94) as u8).collect();
    for length in (0..=130).chain([255, 256, 257, 1_000]) {
        let (number, _) = write(7, [1, 2, 3], &name[..length], 100);
        assert_eq!(number, if (1..=NAME_COLUMNS).contains(&length) { 0 } else { 10 });
    }
    for length in [1, 2, 3, 16, NAME_COLUMNS - 1, NAME_COLUMNS, NAME_COLUMNS + 1] {
        for place in 0..length {
            for byte in 0..=255 {
                let mut altered = name[..length].to_vec();
                altered[place] = byte;
                let (number, _) = write(7, [1, 2, 3], &altered, LINE_LENGTH);
                assert_eq!(number == 0, length <= NAME_COLUMNS && (33..=126).contains(&byte));
            }
        }
    }
}

#[test]
fn tags_written() {
    for tag in edges() {
        for lent in [LINE_LENGTH, 100] {
            let (number, line) = write(tag, [0, 10, MOST_CODE], b"A001", lent);
            assert_eq!((number, &line[..TAG_COLUMNS]), (0, format!("{tag:>TAG_COLUMNS$}").as_bytes()));
        }
    }
}

#[test]
fn codes_written() {
    for code in 0..=MOST_CODE + 65 {
        for channel in 0..3 {
            let mut codes = [1, 20_000, MOST_CODE];
            codes[channel] = code;
            assert_eq!(write(7, codes, b"A001", LINE_LENGTH).0, if code > MOST_CODE { 4 } else { 0 });
        }
    }
    let edges = edges().into_iter().map(|edge| edge as u32);
    for red in edges.clone() {
        for green in [0, 9, MOST_CODE, MOST_CODE + 1, u32::MAX] {
            edges.clone().for_each(|blue| _ = write(7, [red, green, blue], b"A001", LINE_LENGTH));
        }
    }
}

#[test]
fn buffers_written() {
    for lent in (0..=200).chain([1_000, 65_536]) {
        let (number, line) = write(MOST_TAG, [MOST_CODE, 0, 10], b"A001", lent);
        assert_eq!(number, if lent < LINE_LENGTH { 13 } else { 0 });
        let from = if number == 0 { LINE_LENGTH } else { 0 };
        assert_eq!(line[from..], buffer(lent)[from..]);
    }
}

/// Any of the three may be refused, alone and with others: 4 comes before 10, and 10 before 13.
#[test]
fn refusals_in_order() {
    let codes = [0, MOST_CODE, MOST_CODE + 1, u32::MAX];
    let long = [b'A'; NAME_COLUMNS + 8];
    let (good, over) = (&long[..NAME_COLUMNS], &long[..NAME_COLUMNS + 1]);
    let names: [&[u8]; 8] = [b"A001", good, b"", over, &long, b"A 1", b"\x7F", b"A001\n"];
    for (i, name) in names.into_iter().enumerate() {
        for lent in [0, 1, NAME_START - 1, LINE_LENGTH - 1, LINE_LENGTH, LINE_LENGTH + 1, 100] {
            for n in 0..64 {
                let codes = [codes[n % 4], codes[n / 4 % 4], codes[n / 16]];
                let asked = [(codes.iter().any(|&c| c > MOST_CODE), 4), (i > 1, 10), (lent < LINE_LENGTH, 13)];
                let first = asked.into_iter().find_map(|(no, number)| no.then_some(number));
                let (number, line) = write(7, codes, name, lent);
                assert_eq!(number, first.unwrap_or(0));
                assert!(number == 0 || line == buffer(lent));
            }
        }
    }
}

/// Random lines, most of them good.
#[test]
fn lines_written() {
    const LENT: [usize; 6] = [LINE_LENGTH - 1, LINE_LENGTH, LINE_LENGTH, LINE_LENGTH, LINE_LENGTH + 1, 2 * LINE_LENGTH];
    let mut state = 1;
    for _ in 0..200_000 {
        let s = &mut state;
        let mut codes = [0; 3].map(|_: u32| any_code(s));
        let mut name = any_name(s);
        match below(16, s) {
            0 => codes[below(3, s)] = any_tag(s) as u32,
            1 => name[0] = below(256, s) as u8,
            2 => name.push(b'!'),
            _ => {}
        }
        write(any_tag(s), codes, &name, any_of(&LENT, s));
    }
}

// Looking up.

/// Names in good sheets, by each tag and by tags that are not there; the first of equal tags counts.
#[test]
fn good_sheets() {
    assert!(straight_scan::line(GUARD).is_some());
    for count in [0, 1, 2, 3, 7, 9, 10, 11, 99, 100, 101] {
        let lines: Vec<_> = (0..count).map(|k| line_of(k % 60, ["0"; 3], &format!("N{k}"))).collect();
        let sheet = good_sheet(&lines);
        for tag in 0..count.min(60) {
            assert_eq!(look_up(&sheet, tag), format!("N{tag}").as_bytes());
        }
        for tag in [count.min(60), 60, 99, 1_000, MOST_TAG] {
            assert_eq!(look_up(&sheet, tag), b"");
        }
    }
    let mut state = 2;
    for round in 0..3_000 {
        let sheet = good_sheet(&any_lines(round % 12, &mut state));
        look_up_all(&[], &sheet);
        assert!(tags_in(&sheet).into_iter().all(|tag| !look_up(&sheet, tag).is_empty()));
    }
}

/// Counts of three to six digits, up to the greatest, and one line more than that.
#[test]
fn many_lines() {
    for count in [999, 1_000, 9_999, 10_000, 99_999, 100_000, 999_999] {
        let mut sheet = sheet_of(count, &[]);
        (0..count).for_each(|k| sheet.extend(line_of(k, ["0"; 3], "A001")));
        assert_eq!(look_up(&sheet, count - 1), b"A001");
        sheet.extend(GUARD);
        assert_eq!(look_up(&sheet, 0), b"");
        sheet.truncate(sheet_length(count as usize) - 1);
        sheet.push(b' ');
        assert_eq!(look_up(&sheet, 0), b"");
    }
}

#[test]
fn every_byte_changed() {
    for sheet in sheets() {
        for at in 0..sheet.len() {
            (0..=255).for_each(|byte| look_up_with(&sheet, at, &[byte]));
        }
    }
}

#[test]
fn cut_and_extended() {
    for sheet in sheets() {
        for at in 0..=sheet.len() {
            look_up_all(&sheet, &sheet[..at]);
            look_up_all(&sheet, &sheet[at..]);
            for byte in [b' ', b'\n', b'0', b'7', b'A', 0, 255] {
                look_up_all(&sheet, &[&sheet[..at], &[byte], &sheet[at..]].concat());
            }
            if at < sheet.len() {
                look_up_all(&sheet, &[&sheet[..at], &sheet[at + 1..]].concat());
            }
        }
        for byte in 0..=255 {
            look_up_all(&sheet, &[&sheet[..], &[byte]].concat());
            look_up_all(&sheet, &[&[byte], &sheet[..]].concat());
        }
        for at in [0, TITLE.len(), HEADER_LENGTH - 1, HEADER_LENGTH, sheet_length(1), sheet.len()] {
            look_up_all(&sheet, &[&sheet[..at], GUARD, &sheet[at..]].concat());
        }
    }
}

/// A line removed, doubled or put in, with every count from 0 to one more than there then are.
#[test]
fn other_lines() {
    let lines = three_lines();
    let before = good_sheet(&lines);
    let mut lists = vec![vec![], lines.clone()];
    for k in 0..=lines.len() {
        let (head, tail) = lines.split_at(k);
        lists.push([head, &[GUARD.to_vec()], tail].concat());
        if k < lines.len() {
            lists.push([head, &tail[1..]].concat());
            lists.push([head, &lines[k..=k], tail].concat());
        }
    }
    for list in lists {
        for count in 0..=list.len() + 1 {
            look_up_all(&before, &sheet_of(count, &list));
        }
    }
}

/// Texts where a number should be: in the count and in each number of a line.
#[test]
fn numbers_in_columns() {
    let (tag, wide) = (u128::from(MOST_TAG), 10_u128.pow(TAG_COLUMNS as u32));
    let long = [tag - 5..tag + 15, wide - 10..wide];
    let short = [0_u128..12, 65_530..65_540, 99_990..100_010, 655_350..655_370, 999_990..1_000_000];
    let numbers = long.into_iter().chain(short).flatten().map(|n| n.to_string());
    let zeros = [0, 7].map(|n| format!("{n:0TAG_COLUMNS$}"));
    let others = "|00|000000|07|0007|000007|065535|7 7|7  7|1 2 3|-7|+7|-0|+0|- 7|7-|7.0|7.|.7\
        |0x7|7e1|1,000|1_000|7\t|\t7|7\n|\n7|\x007|7\0|O|l|/|:|٧|²|65535 0|0 65535|4294967295 | 4294967295";
    let texts: Vec<String> = numbers.chain(zeros).chain(others.split('|').map(String::from)).collect();
    let mut state = 3;
    let seven = good_sheet(&[three_lines(), any_lines(4, &mut state)].concat());
    for sheet in sheets().into_iter().chain([seven]) {
        let last = sheet.len() - sheet_length(1);
        for (at, width) in [COUNT, TAG, CODES[0], CODES[1], CODES[2]] {
            for column in texts.iter().flat_map(|text| columns(text, width)) {
                look_up_with(&sheet, at, &column);
                if at >= HEADER_LENGTH {
                    look_up_with(&sheet, at + last, &column);
                }
            }
        }
    }
    for count in texts.iter().flat_map(|text| columns(text, COUNT.1)) {
        look_up_with(&good_sheet(&[]), COUNT.0, &count);
    }
}

/// Every text of a few bytes, in each place of a number: in all columns of a count and of a code, and in the last ten of a
/// tag.
#[test]
fn texts_in_columns() {
    const TEN: usize = 10;
    let sheet = &sheets()[0];
    texts(b" 02-", COUNT.1 as u32).for_each(|count| look_up_with(sheet, COUNT.0, &count));
    texts(b" 07", TEN as u32).for_each(|tag| look_up_with(sheet, TAG.0 + TAG.1 - TEN, &tag));
    for (at, width) in CODES {
        texts(b" 0356", width as u32).for_each(|code| look_up_with(sheet, at, &code));
    }
}

/// Names of every length, with every byte in turn at every place of the columns: blanks within, and something after the
/// name.
#[test]
fn names_in_columns() {
    let sheet = &sheets()[0];
    for length in 0..=NAME.1 {
        let name = format!("{:<NAME_COLUMNS$}", "N".repeat(length)).into_bytes();
        for place in 0..NAME.1 {
            for byte in 0..=255 {
                let mut altered = name.clone();
                altered[place] = byte;
                let mut sheet = sheet.clone();
                sheet[NAME.0..][..NAME.1].copy_from_slice(&altered);
                look_up(&sheet, 7);
            }
        }
    }
}

#[test]
fn random_bytes() {
    let mut state = 4;
    for _ in 0..100_000 {
        let s = &mut state;
        // Now of any bytes, now of those that sheets have; and the longer ones of whole lines.
        let alphabet: &[u8] = any_of(&[&b" \n0123456789SWATCHES!~"[..], b" 0", b" 1\nA"], s);
        let length = if below(2, s) == 0 { below(200, s) } else { sheet_length(below(4, s)) };
        let wild = below(3, s) == 0;
        let byte = |s: &mut u64| if wild { random(s) as u8 } else { any_of(alphabet, s) };
        let mut sheet: Vec<u8> = (0..length).map(|_| byte(s)).collect();
        if below(2, s) == 0 {
            recount(&mut sheet);
        }
        look_up_all(&[], &sheet);
    }
}

#[test]
fn random_edits() {
    let mut state = 5;
    let mut good = 0;
    for _ in 0..100_000 {
        let s = &mut state;
        let before = good_sheet(&any_lines(1 + below(5, s), s));
        let sheet = edited(before.clone(), s);
        look_up_all(&before, &sheet);
        good += usize::from(tags_in(&sheet).first().is_some_and(|&tag| !look_up(&sheet, tag).is_empty()));
    }
    assert!((20_000..80_000).contains(&good), "{good} sheets are good: there should be many of both kinds");
}

// There and back.

/// A sheet of written lines gives the names, and each line reads as what was given.
#[test]
fn written_and_looked_up() {
    let mut state = 6;
    for count in (0..200).chain([1_000]) {
        let mut sheet = good_sheet(&vec![vec![b'?'; LINE_LENGTH]; count]);
        let mut names: Vec<(Tag, Vec<u8>)> = vec![];
        for k in 0..count {
            let (tag, name) = (any_tag(&mut state), any_name(&mut state));
            let codes = [0; 3].map(|_: u32| any_code(&mut state));
            let lent = &mut sheet[sheet_length(k)..];
            hubeltxa::write_line(tag, codes, &name, lent).unwrap();
            let line = &lent[..LINE_LENGTH];
            assert_eq!(write(tag, codes, &name, LINE_LENGTH), (0, line.to_vec()));
            assert_eq!(straight_scan::line(line), Some((Sample { tag, codes }, name.len())));
            if names.iter().all(|(t, _)| *t != tag) {
                names.push((tag, name));
            }
        }
        assert_eq!(straight_scan::header(&sheet), Some(count));
        names.iter().for_each(|(tag, name)| assert_eq!(look_up(&sheet, *tag), name));
    }
}
