//! Sets changed by add, remove and load, compared with the straight scan call by call.
//!
//! `cargo test --release` takes some seconds. The ignored tests go through more calls, and load sheets of as many lines
//! as there can be samples: `make test-long`, or `cargo test --release --test changes -- --ignored`. Each test prints
//! how many calls it compared, by call and number, which `--show-output` shows.

#[path = "../../oracle/straight_scan.rs"]
#[allow(dead_code)]
#[rustfmt::skip]
mod straight_scan;

mod calls;
mod compared;
mod damage;
mod lent;
mod lines;
mod numbers;
mod random;
mod sets;

use calls::*;
use compared::{Compared, Tables, CHANGES};
use damage::Both;
use hubeltxa::{lent as wrapper, Refusal};
use lines::*;
use numbers::*;
use random::*;
use sets::*;
use straight_scan::{Bin, Call, Codes, Sample};

/// The tables cut until one is too short.
fn cut(tables: &Tables, state: &mut u64) -> Tables {
    let (samples, octants) = (&tables.samples, &tables.octants);
    match below(3, state) {
        0 => Tables::of_words(&samples[..below(SAMPLE_HEADER, state)], octants),
        1 => Tables::of_words(samples, &[]),
        _ => Tables::of_words(&samples[..below(SAMPLE_HEADER, state)], &[]),
    }
}

/// Calls one after the other, through times when the set grows and when it gets smaller. Some find the tables cut
/// or damaged, which are whole again for the next.
fn sequence(
    compared: &mut Compared,
    mut tables: Tables,
    colours: &[Codes],
    calls: usize,
    most_lines: usize,
    state: &mut u64,
) {
    let mut growing = true;
    for _ in 0..calls {
        growing ^= below(25, state) == 0;
        let bin = tables.set.clone().unwrap();
        let call = any_call(&bin, colours, most_lines, growing, state);
        match below(25, state) {
            0 => _ = compared.ask(&cut(&tables, state), &call),
            1 => damage::edited(Both::of(&bin), state, &mut |s, o| {
                compared.ask(&Tables::of_words(s, o), &call);
            }),
            _ => _ = compared.call(&mut tables, &call),
        }
        assert!(wrapper::check(&tables.samples, &tables.octants));
    }
}

/// Sequences on sets of some tens and of some hundreds of samples.
fn sequences(compared: &mut Compared, runs: usize, calls: usize, mut state: u64) {
    let state = &mut state;
    for run in 0..runs {
        let colours = pool(500, state);
        let (samples, rows, octants, lines) = if run % 4 == 0 { (400, 40, 60, 30) } else { (30, 12, 40, 10) };
        let tables = any_set(below(samples, state), &colours, rows, octants, state);
        sequence(compared, tables, &colours, calls, lines, state);
    }
}

#[test]
fn call_sequences() {
    let mut compared = Compared::default();
    sequences(&mut compared, 120, 150, 1);
    compared.print_all_seen("call sequences", CHANGES);
}

/// Sequences on sets with nearly all rows that there can be in use.
fn large_sequences(compared: &mut Compared, runs: usize, calls: usize, mut state: u64) {
    let state = &mut state;
    for _ in 0..runs {
        let colours = pool(MOST_SAMPLES, state);
        let tables = any_set(MOST_SAMPLES - below(20, state), &colours, 20, 5, state);
        sequence(compared, tables, &colours, calls, 5, state);
    }
}

#[test]
fn call_sequences_on_large_sets() {
    let mut compared = Compared::default();
    large_sequences(&mut compared, 16, 30, 2);
    compared.print("call sequences on large sets");
}

/// Tables of no sample with so many rows.
fn empty(rows: usize, octants: usize, bucket: u32) -> Tables {
    Tables::of(straight_scan::start(sample_words(rows), octant_words(octants), bucket).unwrap())
}

// Adds and removes.

/// Every sample of a set added, then each removed and added again, then all removed from the front, the back or
/// the middle: in tables just long enough, and in tables that lack a word of either.
#[test]
fn added_and_removed() {
    let mut compared = Compared::default();
    for samples in small_sets().into_iter().filter(|samples| samples.len() < 30) {
        for bucket in SIZES {
            let whole = exact(&samples, bucket);
            for (s, o) in [(0, 0), (1, 0), (0, 1)] {
                let words = (whole.sample_words - s, whole.octant_words - o);
                let Ok(empty) = straight_scan::start(words.0, words.1, bucket) else { continue };
                let mut tables = Tables::of(empty);
                let add = |x: &Sample| Call::Add(x.tag, x.codes);
                for sample in &samples {
                    compared.call(&mut tables, &add(sample));
                }
                let fit = tables.set.as_ref().unwrap().samples.len();
                assert!(if s + o == 0 { fit == samples.len() } else { fit < samples.len() });
                for call in samples.iter().flat_map(|x| [Call::Remove(x.tag), add(x), add(x)]) {
                    compared.call(&mut tables, &call);
                }
                for from in 0..3 {
                    let mut left = tables.clone();
                    while let Some(last) = left.set.as_ref().unwrap().samples.len().checked_sub(1) {
                        let row = [0, last / 2, last][from];
                        let tag = left.set.as_ref().unwrap().samples[row].tag;
                        assert_eq!(compared.call(&mut left, &Call::Remove(tag)), (0, 0));
                        assert_eq!(compared.ask(&left, &Call::Remove(tag)), (8, 0));
                    }
                }
            }
        }
    }
    compared.print("added and removed");
}

/// The tables are judged before codes, codes before the tag, the tag before rows, rows before octants.
#[test]
fn questions_in_order() {
    let mut compared = Compared::default();
    let samples = tagged([[0; 3], [MOST_CODE; 3], [0; 3]]);
    // Bucket size 1: the first two fill both tables just so, and the third needs 15 octants more.
    let full = exact(&samples[..2], 1);
    for (rows, octants) in (0..2).flat_map(|rows| (0..2).map(move |octants| (rows, octants))) {
        let tables = Tables::of(longer(&full, SAMPLE_ROW * rows, OCTANT_ROW * 15 * octants));
        for code in [0, MOST_CODE + 1] {
            for tag in [samples[0].tag, samples[2].tag] {
                let asked = [(code > MOST_CODE, 4), (tag == 0, 5), (rows == 0, 6), (octants == 0, 7)];
                let first = asked.into_iter().find_map(|(no, number)| no.then_some(number));
                let call = Call::Add(tag, [0, 0, code]);
                assert_eq!(compared.ask(&tables, &call), (first.unwrap_or(0), 0));
                let mut unsound = tables.samples.clone();
                unsound[BUCKET_SIZE] = 0;
                let short = &unsound[..SAMPLE_HEADER - 1];
                assert_eq!(compared.ask(&Tables::of_words(&unsound, &tables.octants), &call), (2, 0));
                assert_eq!(compared.ask(&Tables::of_words(short, &tables.octants), &call), (1, 0));
            }
        }
    }
    compared.print("questions in order");
}

/// Codes at their ends, in each channel.
#[test]
fn codes() {
    let mut compared = Compared::default();
    let tables = Tables::of(longer(&exact(&tagged(scattered(20, 3)), 2), SAMPLE_ROW, OCTANT_ROW * 40));
    let ends = [MOST_CODE - 1, MOST_CODE, MOST_CODE + 1, MOST_CODE + 2, 1 << 17, 1 << 31, u32::MAX];
    for code in [0, 1, 32_767, 32_768].into_iter().chain(ends) {
        for channel in 0..3 {
            let mut codes = [9; 3];
            codes[channel] = code;
            let number = if code > MOST_CODE { 4 } else { 0 };
            assert_eq!(compared.ask(&tables, &Call::Add(3, codes)), (number, 0));
        }
    }
    compared.print("codes");
}

/// Cases a, b, g and h of document 01.
#[test]
fn cases() {
    let mut compared = Compared::default();
    let three = [Call::Add(7, [0; 3]), Call::Add(8, [MOST_CODE; 3]), Call::Add(9, [0; 3])];
    let mut tables = empty(3, 3, 2);
    three.iter().for_each(|call| assert_eq!(compared.call(&mut tables, call), (0, 0)));
    assert_eq!([0, 1, 2].map(|row| next_of(&tables.samples, row)), [2, 3, 1]);
    assert_eq!(octant_count(&tables.octants), 3);
    assert_eq!(tables.octants[OCTANT_HEADER..octant_words(1)], octant_row(0, 1, 3, [1, 0, 0, 0, 0, 0, 0, 2]));
    for call in [Call::Remove(7), Call::Add(7, [0; 3])] {
        assert_eq!(compared.call(&mut tables, &call), (0, 0));
    }
    assert_eq!([0, 1, 2].map(|row| tag_of(&tables.samples, row)), [8, 9, 7].map(Some));
    // Case h needs 18 octants.
    for (words, number) in [(octant_words(18), 0), (octant_words(18) - 1, 7)] {
        let mut tables = Tables::of(straight_scan::start(sample_words(3), words, 1).unwrap());
        assert_eq!(three.iter().map(|call| compared.call(&mut tables, call).0).max(), Some(number));
    }
    compared.print("cases");
}

// Loads.

/// Sets to load into, none or part of the samples, and the samples to load.
fn parts(samples: &[Sample]) -> impl Iterator<Item = (&[Sample], &[Sample])> {
    [0, 1, samples.len() / 2].into_iter().map(|n| samples.split_at(n))
}

/// Lists of samples to load, of each kind of colour.
fn lists() -> Vec<Vec<Sample>> {
    let planes = grid(&[0, 32_767, 32_768]).into_iter().step_by(2);
    vec![
        tagged(scattered(16, 11)),
        tagged(clustered(20, 2, 9, 12)),
        tagged([[300, MOST_CODE, 0]; 12]),
        tagged(planes),
        tagged(close_pairs(14, 13)),
    ]
}

/// The tables of some of the samples with each bucket size, with rows for all.
fn part_filled(all: &[Sample], there: &[Sample]) -> Vec<Tables> {
    let words = |bucket| {
        let whole = exact(all, bucket);
        Tables::of(Bin { samples: there.to_vec(), ..whole })
    };
    SIZES.map(words).into()
}

/// A line that is not good, or has a tag of the set or of an earlier line, at every position.
#[test]
fn lines_refused() {
    let mut compared = Compared::default();
    for all in lists() {
        for (there, new) in parts(&all) {
            for tables in part_filled(&all, there) {
                assert_eq!(compared.load(&tables, sheet(new)), (0, new.len() as u32));
                for at in 0..new.len() {
                    let with = |line: Vec<u8>| {
                        let mut lines: Vec<Vec<u8>> = new.iter().map(|&sample| self::line(sample)).collect();
                        lines[at] = line;
                        good_sheet(&lines)
                    };
                    for bad in bad_lines(new[at]) {
                        assert_eq!(compared.load(&tables, with(bad)), (12, at as u32));
                    }
                    for known in there.iter().chain(&new[..at]) {
                        let known = Sample { tag: known.tag, ..new[at] };
                        assert_eq!(compared.load(&tables, with(line(known))), (5, at as u32));
                    }
                }
            }
        }
    }
    compared.print("lines refused");
}

/// Rows, and octant rows, that end at every position.
#[test]
fn rows_run_out() {
    let mut compared = Compared::default();
    for all in lists() {
        for (there, new) in parts(&all) {
            for tables in part_filled(&all, there) {
                let bin = tables.set.clone().unwrap();
                let (rows, octants) = (all.len(), bin.octant_rows());
                for k in there.len()..=rows {
                    let taken = (k - there.len()) as u32;
                    let number = if k < rows { 6 } else { 0 };
                    assert_eq!(compared.load(&tables.with_rows(k, octants), sheet(new)), (number, taken));
                }
                for k in bin.octants()..octants {
                    assert_eq!(compared.load(&tables.with_rows(rows, k), sheet(new)).0, 7);
                }
            }
        }
    }
    compared.print("rows run out");
}

/// Every combination of a line that is not good, a tag of the set, a tag of an earlier line, an end of the rows and
/// an end of the octant rows, at each of five lines or nowhere.
#[test]
fn ties_of_every_kind() {
    let mut compared = Compared::default();
    const LINES: usize = 5;
    for all in [tagged([[0; 3], [MOST_CODE; 3]].into_iter().chain(close_pairs(6, 14))), tagged(scattered(8, 15))] {
        for (n, bucket) in [0, 1, 3].into_iter().flat_map(|n| [1, 2, 4].map(|bucket| (n, bucket))) {
            let (there, new) = (&all[..n], &all[n..n + LINES]);
            let filled = Tables::of(exact(there, bucket));
            let mut ends: Vec<usize> = (n..=n + LINES).map(|k| exact(&all[..k], bucket).octants()).collect();
            ends.dedup();
            for k in 0..(LINES + 1).pow(3) {
                let [bad, known, same] = [0, 1, 2].map(|i| k / (LINES + 1).pow(i) % (LINES + 1));
                let mut samples = new.to_vec();
                if known < LINES && n > 0 {
                    samples[known].tag = there[known % n].tag;
                }
                if same < LINES && same > 0 {
                    samples[same].tag = samples[same / 2].tag;
                }
                let mut lines: Vec<Vec<u8>> = samples.iter().map(|&sample| line(sample)).collect();
                if bad < LINES {
                    lines[bad][0] = b'x';
                }
                let sheet = good_sheet(&lines);
                for rows in n..=n + LINES {
                    for &octants in &ends {
                        compared.load(&filled.with_rows(rows, octants), sheet.clone());
                    }
                }
            }
        }
    }
    compared.print("ties of every kind");
}

/// Which of two refusals comes first.
#[test]
fn ties() {
    let mut compared = Compared::default();
    // With bucket size 1 the first two fill 3 octant rows; the third needs 15 more, the fourth no more than that.
    let all = tagged([[0; 3], [MOST_CODE; 3], [0; 3], [0; 3]]);
    let tables = |n: usize, rows: usize, octants: usize| Tables::of(exact(&all[..n], 1)).with_rows(rows, octants);
    let bad = |at: usize, samples: &[Sample]| {
        let mut sheet = sheet(samples);
        sheet[sheet_length(at)] = b'x';
        sheet
    };
    // A line that is not good, on full rows; and one with a known tag.
    assert_eq!(compared.load(&tables(2, 2, 3), bad(0, &all[2..])), (12, 0));
    assert_eq!(compared.load(&tables(2, 2, 3), sheet(&all[..2])), (5, 0));
    assert_eq!(compared.load(&tables(1, 2, 3), bad(1, &all[1..])), (12, 1));
    assert_eq!(compared.load(&tables(1, 2, 3), sheet(&[all[1], all[0]])), (5, 1));
    // Full rows, where the octants would not do either.
    assert_eq!(compared.load(&tables(2, 2, 3), sheet(&all[2..])), (6, 0));
    assert_eq!(compared.load(&tables(0, 2, 3), sheet(&all)), (6, 2));
    // A tag twice in one sheet: the second is refused.
    assert_eq!(compared.load(&tables(0, 4, 18), sheet(&[all[0], all[1], all[0]])), (5, 2));
    assert_eq!(compared.load(&tables(0, 2, 3), sheet(&[all[0], all[0], all[0]])), (5, 1));
    // Octants that do not do at a line before one that is not good, or has a known tag, or finds no row.
    assert_eq!(compared.load(&tables(0, 4, 17), bad(3, &all)), (7, 2));
    assert_eq!(compared.load(&tables(0, 4, 17), sheet(&[all[0], all[1], all[2], all[0]])), (7, 2));
    assert_eq!(compared.load(&tables(0, 3, 17), sheet(&all)), (7, 2));
    // The same line: not good, and no octants for what it would be.
    assert_eq!(compared.load(&tables(0, 4, 17), bad(2, &all)), (12, 2));
    // With the octants that it lacked, all of them.
    assert_eq!(compared.load(&tables(0, 4, 18), sheet(&all)), (0, 4));
    // The tables before the header, and a header that is not good before its lines.
    let mut unsound = tables(2, 2, 3);
    unsound.octants[OCTANT_COUNT] = 4;
    let short = &unsound.samples[..SAMPLE_HEADER - 1];
    assert_eq!(compared.load(&Tables::of_words(&unsound.samples, &unsound.octants), vec![]), (2, 0));
    assert_eq!(compared.load(&Tables::of_words(short, &unsound.octants), vec![]), (1, 0));
    assert_eq!(compared.load(&tables(2, 2, 3), bad(0, &all)[1..].to_vec()), (11, 0));
    compared.print("ties");
}

/// Tables to load two or three lines into: empty ones with rows and octant rows enough, and with one row.
fn few_rows() -> [Tables; 2] {
    [3, 1].map(|rows| empty(rows, 60, 1))
}

/// Every byte of a sheet changed to every other.
#[test]
fn every_byte_changed() {
    let mut compared = Compared::default();
    let sheet = good_sheet(&three_lines()[..2]);
    for (at, byte) in (0..sheet.len()).flat_map(|at| (0..=255).map(move |byte| (at, byte))) {
        let mut altered = sheet.clone();
        altered[at] = byte;
        compared.load(&few_rows()[0], altered);
    }
    compared.print("every byte changed");
}

/// Headers and lengths that do not fit together, headers that are not good, sheets with no lines.
#[test]
fn headers() {
    let mut compared = Compared::default();
    let lines = three_lines();
    let whole = good_sheet(&lines);
    for tables in few_rows() {
        for n in 0..=lines.len() {
            for count in
                (0..=lines.len() + 1).map(|n| n.to_string()).chain(["", "03", "3 ", "+3", "-0", "x"].map(String::from))
            {
                let number = compared.load(&tables, sheet_of(&count, &lines[..n])).0;
                assert_eq!(number == 11, count != n.to_string());
            }
        }
        for at in 0..whole.len() {
            assert_eq!(compared.load(&tables, whole[..at].to_vec()), (11, 0));
            assert_eq!(compared.load(&tables, [&whole[..at], b" ", &whole[at..]].concat()), (11, 0));
            compared.load(&tables, whole[at + 1..].to_vec());
        }
        for byte in 0..=255 {
            assert_eq!(compared.load(&tables, [&whole[..], &[byte]].concat()), (11, 0));
        }
        assert_eq!(compared.load(&tables, sheet_of(0, &[])), (0, 0));
        assert_eq!(compared.load(&tables, vec![]), (11, 0));
    }
    // Sheets with no lines change nothing, also where no row is left.
    for bin in small_sets().iter().flat_map(|samples| SIZES.map(|bucket| exact(samples, bucket))) {
        assert_eq!(compared.load(&Tables::of(bin), good_sheet(&[])), (0, 0));
    }
    compared.print("headers");
}

/// More lines than rows, up to the most that a header can say.
#[test]
fn sheets_longer_than_tables() {
    let mut compared = Compared::default();
    for count in [999, 9_999, 99_999, 999_999] {
        let lines: Vec<Vec<u8>> = (0..count).map(|k| line_of(k, [k % CODE_COUNT, 0, 0], "A001")).collect();
        for tables in few_rows() {
            let rows = tables.set.as_ref().unwrap().sample_rows();
            assert_eq!(compared.load(&tables, good_sheet(&lines)), (6, rows as u32));
        }
    }
    compared.print("sheets longer than tables");
}

// Tables that are not sound, and those that are too short.

/// Calls of each kind, with arguments that would be taken and ones that would not.
fn each_call(samples: &[u32], state: &mut u64) -> [Call; 3] {
    let tag = |state: &mut u64| match tag_of(samples, 0) {
        Some(tag) if below(2, state) == 0 => tag,
        _ => random(state) as Tag,
    };
    let code = any_of(&[0, MOST_CODE, MOST_CODE + 1], state);
    let sheets = [good_sheet(&[]), good_sheet(&[line_of(tag(state), [1, 2, 3], "A001")]), TITLE.into()];
    let sheet = sheets[below(3, state)].clone();
    [Call::Add(tag(state), [1, 2, code]), Call::Remove(tag(state)), Call::Load(sheet)]
}

/// Sees damaged tables: the calls that change sets all give 2 and change nothing, unless they are sound again.
fn seeing<'a>(compared: &'a mut Compared, state: &'a mut u64) -> impl FnMut(&[u32], &[u32]) + 'a {
    move |samples, octants| {
        let tables = Tables::of_words(samples, octants);
        for call in each_call(samples, state) {
            let answer = compared.ask(&tables, &call);
            assert!(tables.set.is_ok() || answer.0 <= 2 && answer.1 == 0);
        }
    }
}

/// Each kind of damage, to sets with each of the bucket sizes of these tests; of the words, every step-th.
fn damaged(compared: &mut Compared, step: usize, mut state: u64) {
    let mut tags = random(&mut state);
    damage::small(&SIZES, step, &mut tags, &mut seeing(compared, &mut state));
}

#[test]
fn damaged_tables() {
    let mut compared = Compared::default();
    damaged(&mut compared, 11, 21);
    compared.print("damaged tables");
}

#[test]
fn damaged_large_tables() {
    let mut compared = Compared::default();
    damage::large(211, &mut seeing(&mut compared, &mut 22));
    compared.print("damaged large tables");
}

/// A few edits at once, and any words.
fn edited(compared: &mut Compared, tries: usize, mut state: u64) {
    let mut edits = random(&mut state);
    damage::edits(&SIZES, tries, (40, 60), &mut edits, &mut seeing(compared, &mut state));
}

#[test]
fn edited_tables() {
    let mut compared = Compared::default();
    edited(&mut compared, 20_000, 28);
    compared.print("edited tables");
}

/// Every pair of lengths that is too short, or just long enough, with words that may be a set's.
#[test]
fn short_tables() {
    let mut compared = Compared::default();
    let mut state = 29;
    for (n, m) in (0..SAMPLE_HEADER + 2).flat_map(|n| (0..octant_words(1) + 2).map(move |m| (n, m))) {
        for round in 0..20 {
            let word = |state: &mut u64| if round == 0 { 0 } else { below(3, state) as u32 };
            let samples: Vec<u32> = (0..n).map(|at| if at == BUCKET_SIZE { 16 } else { word(&mut state) }).collect();
            let octants: Vec<u32> = (0..m).map(|_| word(&mut state)).collect();
            let tables = Tables::of_words(&samples, &octants);
            for call in each_call(&samples, &mut state) {
                let number = compared.ask(&tables, &call).0;
                assert_eq!(number == 1, too_short(n, m));
            }
        }
    }
    compared.print("short tables");
}

// As many rows as there can be.

/// Tables with more words than the most rows have: exactly those rows are used. The bucket size is the greatest, so that
/// the straight scan is quick.
#[test]
fn most_rows() {
    let mut compared = Compared::default();
    let samples = tagged(scattered(MOST_SAMPLES + 3, 31));
    for words in [0, 1, SAMPLE_ROW - 1, SAMPLE_ROW, SAMPLE_ROW + 3, SAMPLE_ROW * 100] {
        let more = |n: usize| SAMPLE_ROW * (MOST_SAMPLES - n) + words;
        let bin = |n: usize| longer(&exact(&samples[..n], MOST_BUCKET), more(n), OCTANT_ROW * 50);
        let mut tables = Tables::of(bin(MOST_SAMPLES - 1));
        let add = |i: usize| Call::Add(samples[i].tag, samples[i].codes);
        assert_eq!(compared.load(&tables, sheet(&samples[MOST_SAMPLES - 1..])), (6, 1));
        assert_eq!(compared.call(&mut tables, &add(MOST_SAMPLES - 1)), (0, 0));
        assert_eq!(compared.call(&mut tables, &add(MOST_SAMPLES)), (6, 0));
        assert_eq!(compared.call(&mut tables, &add(7)), (5, 0));
        assert_eq!(compared.load(&tables, sheet(&samples[MOST_SAMPLES..])), (6, 0));
        assert_eq!(compared.load(&tables, sheet(&samples[9..10])), (5, 0));
        for row in [0, MOST_SAMPLES / 2, MOST_SAMPLES - 1] {
            let tag = tables.set.as_ref().unwrap().samples[row].tag;
            assert_eq!(compared.call(&mut tables, &Call::Remove(tag)), (0, 0));
            assert_eq!(compared.call(&mut tables, &Call::Add(tag, [row as u32; 3])), (0, 0));
            assert_eq!(compared.call(&mut tables, &add(MOST_SAMPLES)), (6, 0));
        }
    }
    compared.print("most rows");
}

/// Whole sheets, up to more lines than there can be rows, into empty tables. The bucket size is the greatest, so that
/// the straight scan, which builds a tree for each line, is quick.
#[test]
fn whole_sheets() {
    let mut compared = Compared::default();
    let samples = tagged(scattered(MOST_SAMPLES + 3, 32));
    let empty = |rows: usize, octants: usize| empty(rows, octants, MOST_BUCKET);
    assert_eq!(compared.load(&empty(MOST_SAMPLES, 100), sheet(&samples[..MOST_SAMPLES])), (0, MOST_SAMPLES as u32));
    assert_eq!(compared.load(&empty(MOST_SAMPLES + 9, 100), sheet(&samples)), (6, MOST_SAMPLES as u32));
    let mut twice = samples.clone();
    twice[MOST_SAMPLES].tag = twice[MOST_SAMPLES - 1].tag;
    assert_eq!(compared.load(&empty(MOST_SAMPLES + 9, 100), sheet(&twice)), (5, MOST_SAMPLES as u32));
    for again in [1, MOST_SAMPLES / 2 + 1, MOST_SAMPLES - 1] {
        let mut twice = samples[..MOST_SAMPLES].to_vec();
        twice[again].tag = twice[again / 3].tag;
        assert_eq!(compared.load(&empty(MOST_SAMPLES, 100), sheet(&twice)), (5, again as u32));
    }
    for octants in [1, 2, 30, 60] {
        assert_eq!(compared.load(&empty(MOST_SAMPLES, octants), sheet(&samples[..MOST_SAMPLES])).0, 7);
    }
    let high: Vec<Sample> = (0..MOST_SAMPLES).map(|i| Sample { tag: high_tag(i), ..samples[i] }).collect();
    assert_eq!(compared.load(&empty(MOST_SAMPLES, 100), sheet(&high)), (0, MOST_SAMPLES as u32));
    compared.print("whole sheets");
}

/// The calls stay within the stack that the header says, on the deepest tree, with tags that part last: they run in a
/// thread that has little more, and one that took more would end the test.
#[test]
fn within_the_stack() {
    const STACK: usize = 80_000;
    let colours = close_pairs(MOST_SAMPLES, 36).into_iter().take(MOST_SAMPLES).enumerate();
    let samples: Vec<Sample> = colours.map(|(i, codes)| Sample { tag: high_tag(i), codes }).collect();
    let (last, first, known) = (samples.len() - 1, samples[0].tag, samples[1].tag);
    let (most, again) = (sheet(&samples[..last]), sheet(&samples[last..]));
    let (mut s, mut o) = (vec![0; sample_words(MOST_SAMPLES)], vec![0; octant_words(MOST_OCTANTS)]);
    let run = move || {
        assert_eq!(wrapper::clear(&mut s, &mut o, 1), Ok(()));
        assert_eq!(wrapper::load(&mut s, &mut o, &most), Ok(last as u32));
        assert_eq!(wrapper::add(&mut s, &mut o, known, [0; 3]), Err(Refusal::KnownTag));
        assert_eq!(wrapper::add(&mut s, &mut o, 1, [0; 3]), Ok(()));
        assert_eq!(wrapper::remove(&mut s, &mut o, 1), Ok(()));
        assert_eq!(wrapper::load(&mut s, &mut o, &again), Ok(1));
        assert!(wrapper::load(&mut s, &mut o, &again).is_err());
        assert_eq!(wrapper::remove(&mut s, &mut o, first), Ok(()));
        assert!(wrapper::load(&mut s, &mut o, &most).is_err());
        assert!(wrapper::check(&s, &o));
    };
    let thread = std::thread::Builder::new().stack_size(STACK + 16_384);
    thread.spawn(run).unwrap().join().unwrap();
}

// Long.

#[test]
#[ignore = "long: many sequences of calls"]
fn call_sequences_long() {
    let mut compared = Compared::default();
    (0..60).for_each(|seed| sequences(&mut compared, 120, 150, 1_000 + seed));
    compared.print_all_seen("call sequences, long", CHANGES);
}

#[test]
#[ignore = "long: many sequences of calls on large sets"]
fn call_sequences_on_large_sets_long() {
    let mut compared = Compared::default();
    (0..20).for_each(|seed| large_sequences(&mut compared, 16, 60, 2_000 + seed));
    compared.print_all_seen("call sequences on large sets, long", CHANGES);
}

#[test]
#[ignore = "long: every kind of damage"]
fn damaged_tables_long() {
    let mut compared = Compared::default();
    damaged(&mut compared, 1, 3_000);
    damage::large(20, &mut seeing(&mut compared, &mut 3_010));
    (0..5).for_each(|seed| edited(&mut compared, 100_000, 3_001 + seed));
    compared.print("damaged tables, long");
}

/// Whole sheets of each kind of colour, with each bucket size, in tables just long enough, one octant row short, and
/// with the octant rows of half.
#[test]
#[ignore = "long: whole sheets of the most lines"]
fn whole_sheets_long() {
    let mut compared = Compared::default();
    let most = MOST_SAMPLES;
    for colours in [scattered(most, 33), clustered(most, 12, 5_000, 34), close_pairs(most, 35)] {
        let samples = tagged(colours);
        for bucket in [1, 16, MOST_BUCKET] {
            let whole = exact(&samples, bucket);
            let empty = Tables::of(Bin { samples: vec![], ..whole.clone() });
            assert_eq!(compared.load(&empty, sheet(&samples)), (0, most as u32));
            let octants = whole.octant_rows();
            assert_eq!(compared.load(&empty.with_rows(most, octants - 1), sheet(&samples)).0, 7);
            let half = exact(&samples[..most / 2], bucket).octant_rows();
            assert_eq!(compared.load(&empty.with_rows(most, half), sheet(&samples)).0, 7);
        }
    }
    compared.print("whole sheets, long");
}
