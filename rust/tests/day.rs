//! Whole days: random sequences of all seven calls over one pair of tables that holds any words at first, compared with
//! the straight scan after every call.
//!
//! The first call is a clear. The straight scan never sees a word of the tables: it starts at that clear, and keeps
//! its own list. Each answer, with the whole listing, and every word of both tables must be what it says, through the
//! C calls and through the wrapper, each on a pair of its own that nothing else writes. Where the tables are too
//! short every call is refused, and the words stay.
//!
//! `cargo test --release` takes some seconds. The ignored test goes through more days: `make test-long`, or
//! `cargo test --release --test day -- --ignored`. Each test prints how many calls it compared, by call and number,
//! which `--show-output` shows.

#[path = "../../oracle/straight_scan.rs"]
#[allow(dead_code)]
#[rustfmt::skip]
mod straight_scan;

mod asked;
mod calls;
mod compared;
mod days;
mod lent;
mod lines;
mod numbers;
mod random;
mod sets;

use calls::*;
use compared::query::brief;
use compared::{query, Compared, ALL_SEVEN};
use days::*;
use lent::Lent;
use numbers::*;
use random::*;
use sets::*;
use straight_scan::{Answer, Call, Codes};

/// A pair of tables that the C calls are lent, one that the wrapper is lent, and what the straight scan has.
struct Day {
    lent: (Lent<u32>, Lent<u32>),
    wrapped: Words,
    scanned: Scanned,
}

impl Day {
    /// Before the first call: any words.
    fn new(lengths: Lengths, state: &mut u64) -> Self {
        let scanned = Scanned::new(lengths, state);
        let words = scanned.expected.clone();
        Day { lent: (Lent::new(&words.0), Lent::new(&words.1)), wrapped: words, scanned }
    }

    /// The one comparison of a call in a day.
    fn call(&mut self, compared: &mut Compared, call: &Call) -> Answer {
        let before = shown(&self.scanned.expected.0, &self.scanned.expected.1);
        let message = || match call {
            Call::Load(sheet) => format!("load of \"{}\" on {before}", sheet[..sheet.len().min(400)].escape_ascii()),
            _ => format!("{call:?} on {before}"),
        };
        let answer = self.scanned.call(call);
        let expected = &self.scanned.expected;
        let changed = |(number, taken): compared::Answer| Answer { number, taken, ..Answer::default() };

        let (s, o) = (self.lent.0.within(), self.lent.1.within());
        let given = match call {
            Call::Pick(gesture, lent) => query::through_c(s, o, gesture, lent),
            _ => changed(compared::through_c(s, o, call)),
        };
        assert!(given == answer, "the library's {}; the scan's {}: {}", brief(&given), brief(&answer), message());
        assert!(self.lent.0.left() == Some(&expected.0), "the library's sample table: {}", message());
        assert!(self.lent.1.left() == Some(&expected.1), "the library's octant table: {}", message());

        let (s, o) = &mut self.wrapped;
        let given = match call {
            Call::Pick(gesture, lent) => query::through_wrapper(s, o, gesture, lent),
            _ => changed(compared::through_wrapper(s, o, call)),
        };
        assert!(given == answer, "the wrapper's {}; the scan's {}: {}", brief(&given), brief(&answer), message());
        assert!(&self.wrapped == expected, "the wrapper's tables: {}", message());

        compared.count(call, true, answer.number);
        answer
    }
}

/// A day of so many calls after the first clear. It goes through times when the set grows and when it gets smaller. Of
/// four, one starts with a clear that is refused, and changes nothing.
fn day(
    compared: &mut Compared,
    lengths: Lengths,
    bucket: u32,
    colours: &[Codes],
    calls: usize,
    most_lines: usize,
    state: &mut u64,
) {
    let mut day = Day::new(lengths, state);
    if below(4, state) == 0 {
        day.call(compared, &Call::Clear(any_of(&[0, MOST_BUCKET + 1, u32::MAX], state)));
    }
    day.call(compared, &Call::Clear(bucket));
    let mut growing = true;
    for _ in 0..calls {
        growing ^= below(40, state) == 0;
        let call = any_of_seven(&day.scanned, colours, most_lines, growing, state);
        day.call(compared, &call);
    }
}

/// So many days of each kind, with each bucket size.
fn days(compared: &mut Compared, rounds: usize, calls: usize, mut state: u64) {
    let state = &mut state;
    for _ in 0..rounds {
        for (kind, bucket) in (0..6).flat_map(|kind| SIZES.map(|bucket| (kind, bucket))) {
            let colours = pool(300, state);
            let (lengths, lines) = any_lengths(kind, &colours, bucket, state);
            day(compared, lengths, bucket, &colours, calls, lines, state);
        }
    }
}

/// Every call gave each of its numbers but 2: 1, 3 to 9, 11, 12 and 13. After a first clear the tables are always
/// sound, so 2 was never given.
fn print(compared: &Compared, what: &str) {
    compared.print_all_seen_but(&[2], what, ALL_SEVEN);
}

#[test]
fn whole_days() {
    let mut compared = Compared::default();
    days(&mut compared, 14, 400, 1);
    print(&compared, "whole days");
}

/// Days with as many rows as there can be, and words past them, on sets that need nearly all of them from the second
/// call on. No later clear is accepted. The bucket size is the greatest, so that the straight scan, which builds a tree
/// for each line, is quick.
fn large_days(compared: &mut Compared, runs: usize, calls: usize, mut state: u64) {
    let state = &mut state;
    for _ in 0..runs {
        let colours = pool(MOST_SAMPLES, state);
        let samples = tagged((0..MOST_SAMPLES - below(10, state)).map(|_| any_of(&colours, state)));
        let mut day = Day::new((sample_words(MOST_SAMPLES) + below(40, state), octant_words(8_000)), state);
        day.call(compared, &Call::Clear(MOST_BUCKET));
        assert_eq!(day.call(compared, &Call::Load(sheet(&samples))).number, 0);
        for _ in 0..calls {
            let call = any_of_seven(&day.scanned, &colours, 5, true, state);
            if !matches!(call, Call::Clear(1..=MOST_BUCKET)) {
                day.call(compared, &call);
            }
        }
    }
}

#[test]
fn days_on_large_sets() {
    let mut compared = Compared::default();
    large_days(&mut compared, 3, 100, 2);
    compared.print("days on large sets");
}

// Long.

#[test]
#[ignore = "long: many days"]
fn whole_days_long() {
    let mut compared = Compared::default();
    (0..20).for_each(|seed| days(&mut compared, 10, 600, 1_000 + seed));
    large_days(&mut compared, 20, 400, 2_000);
    print(&compared, "whole days, long");
}
