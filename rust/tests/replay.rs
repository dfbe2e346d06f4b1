//! Scripts of calls: whole days that the driver runs in one call, compared with the straight scan.
//!
//! `hbx_replay` is no call of the library: it carries the whole-day theorem to running code, since what it promises is
//! the theorem's conclusion. It needs `make parts` at the root of the repository first. Each answer, every
//! listing word and every word of both tables must be what the straight scan says, and no word beside them is written.
//!
//! The ignored test runs more and longer scripts: `make test-long`.

#[path = "../../oracle/straight_scan.rs"]
#[allow(dead_code)]
#[rustfmt::skip]
mod straight_scan;

mod asked;
mod calls;
mod compared;
mod days;
mod lent;
mod lines;
mod numbers;
mod random;
mod script;
mod sets;

use calls::*;
use compared::query::brief;
use compared::{Compared, ALL_SEVEN};
use days::*;
use lent::Lent;
use random::*;
use script::*;
use straight_scan::{Answer, Call};

#[link(name = "replay", kind = "static")]
extern "C" {
    fn hbx_replay(
        samples: *mut u32,
        samples_len: usize,
        octants: *mut u32,
        octants_len: usize,
        script: *const u32,
        script_len: usize,
        floats: *const f32,
        floats_len: usize,
        sheets: *const u8,
        sheets_len: usize,
        listings: *mut u32,
        listings_len: usize,
        answers: *mut u32,
        answers_len: usize,
    ) -> usize;
}

/// The calls of a day, and what the straight scan answers to each.
fn scanned_day(
    scanned: &mut Scanned,
    bucket: u32,
    kind: usize,
    calls: usize,
    lines: usize,
    state: &mut u64,
) -> Vec<(Call, Answer)> {
    let colours = pool(200, state);
    let mut growing = true;
    let mut day = vec![];
    let mut make = |call: Call, scanned: &mut Scanned| {
        let answer = scanned.call(&call);
        day.push((call, answer));
    };
    if kind % 2 == 1 {
        make(Call::Clear(any_of(&[0, 257, u32::MAX], state)), scanned);
    }
    make(Call::Clear(bucket), scanned);
    for _ in 0..calls {
        growing ^= below(40, state) == 0;
        let call = any_of_seven(scanned, &colours, lines, growing, state);
        make(call, scanned);
    }
    day
}

/// What the driver leaves: both tables, the listings and the answers.
type Left = [Vec<u32>; 4];

/// Runs a script on tables, with words for the answers. No word beside what is lent is written.
fn run(script: &Script, tables: &Words, answers: &[u32]) -> (usize, Left) {
    let mut lent = [&tables.0[..], &tables.1, &script.listings, answers].map(Lent::new);
    let [s, o, l, a] = lent.each_mut().map(|lent| {
        let within = lent.within();
        (within.as_mut_ptr(), within.len())
    });
    let (w, f, b) = (&script.words, &script.floats, &script.sheets);
    let (words, floats, sheets) = ((w.as_ptr(), w.len()), (f.as_ptr(), f.len()), (b.as_ptr(), b.len()));
    let steps = unsafe {
        hbx_replay(s.0, s.1, o.0, o.1, words.0, words.1, floats.0, floats.1, sheets.0, sheets.1, l.0, l.1, a.0, a.1)
    };
    (steps, lent.map(|mut lent| lent.left().expect("a word beside what is lent is written").to_vec()))
}

/// Runs the script of a day, and compares all that is left.
fn replayed(compared: &mut Compared, before: &Words, day: &[(Call, Answer)], after: &Words, state: &mut u64) {
    let mut script = Script::of(day.iter().map(|(call, _)| call), state);
    script.listings.extend([7; 3]); // words past the script's, which stay
    let answers = vec![0xBEEF; ANSWER * day.len() + below(ANSWER, state)];
    let (steps, [s, o, l, a]) = run(&script, before, &answers);
    assert_eq!(steps, day.len());
    let mut at = 0;
    for (i, (call, answer)) in day.iter().enumerate() {
        let room = if let Call::Pick(_, lent) = call { lent.len() } else { 0 };
        let given = answer_of(&a[ANSWER * i..ANSWER * (i + 1)], &l[at..at + room]);
        assert!(given == *answer, "step {i}, {call:?}: {}; the scan's {}", brief(&given), brief(answer));
        at += room;
        compared.count(call, true, answer.number);
    }
    assert_eq!((&l[at..], &a[ANSWER * steps..]), (&script.listings[at..], &answers[ANSWER * steps..]));
    assert!((&s, &o) == (&after.0, &after.1), "the tables after the script");
}

/// So many scripts of each kind of lengths, with each bucket size.
fn scripts(compared: &mut Compared, rounds: usize, calls: usize, mut state: u64) {
    let state = &mut state;
    for round in 0..rounds {
        for (kind, bucket) in (0..6).flat_map(|kind| SIZES.map(|bucket| (kind, bucket))) {
            let (lengths, lines) = any_lengths(kind, &pool(200, state), bucket, state);
            let mut scanned = Scanned::new(lengths, state);
            let before = scanned.expected.clone();
            let day = scanned_day(&mut scanned, bucket, round, calls, lines, state);
            replayed(compared, &before, &day, &scanned.expected, state);
        }
    }
}

#[test]
fn scripts_of_whole_days() {
    let mut compared = Compared::default();
    scripts(&mut compared, 6, 300, 1);
    compared.print_all_seen_but(&[2], "scripts", ALL_SEVEN);
}

/// Fewer words, floats or answer words than the script has steps: so many steps are made, and the rest stays.
#[test]
fn short_of_room() {
    const CALLS: usize = 3;
    let whole = Script::of(&[Call::Clear(2), Call::Add(7, [1, 2, 3]), Call::Remove(7)], &mut 1);
    let tables = (vec![9; 30], vec![9; 40]);
    let one_short = |each: usize| [CALLS * each, CALLS * each - 1, each - 1, 0];
    for (words, floats) in one_short(STEP).into_iter().flat_map(|words| one_short(STEP).map(|floats| (words, floats))) {
        for answers in one_short(ANSWER) {
            let (words, floats) = (whole.words[..words].to_vec(), vec![0.0; floats]);
            let made = (words.len() / STEP).min(floats.len() / STEP).min(answers / ANSWER);
            let (steps, [_, _, _, left]) =
                run(&Script { words, floats, ..Script::default() }, &tables, &vec![0xBEEF; answers]);
            assert_eq!(steps, made);
            let (given, rest) = left.split_at(ANSWER * made);
            assert!(given.iter().all(|&word| word == 0) && rest.iter().all(|&word| word == 0xBEEF));
        }
    }
}

#[test]
#[ignore = "long: many scripts"]
fn scripts_of_whole_days_long() {
    let mut compared = Compared::default();
    (0..10).for_each(|seed| scripts(&mut compared, 6, 1_000, 1_000 + seed));
    compared.print_all_seen_but(&[2], "scripts, long", ALL_SEVEN);
}
