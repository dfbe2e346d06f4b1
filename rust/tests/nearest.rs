//! The nearest sample, compared with the straight scan call by call. Ties are in ties.rs.
//!
//! `cargo test --release` takes some seconds. The ignored tests ask more: `make test-long`, or
//! `cargo test --release --test nearest -- --ignored`. Each test prints how many calls it compared, by call and number,
//! which `--show-output` shows.

#[path = "../../oracle/straight_scan.rs"]
#[allow(dead_code)]
#[rustfmt::skip]
mod straight_scan;

mod asked;
mod compared;
mod damage;
mod deep;
mod lent;
mod limits;
mod numbers;
mod random;
mod runs;
mod sets;

use asked::*;
use compared::{each, samples_of, Compared, Tables, NEAREST, NEAREST_NOT_SOUND};
use limits::*;
use numbers::*;
use random::*;
use runs::*;
use sets::*;
use straight_scan::{distance, Answer, Call, Codes, Gesture, Sample};

/// Nearest; of sixteen, one that is refused by 9.
fn any_query(samples: &[u32], state: &mut u64) -> Gesture {
    seldom_bad(any_nearest(samples, state), state)
}

fn ask(compared: &mut Compared, tables: &Tables, centre: Codes, radius: u32) -> Answer {
    compared.query(tables, &nearest(centre, radius), &[])
}

/// What is found, as a tag and a squared distance.
fn found(answer: &Answer) -> Option<(Tag, u64)> {
    answer.found.then_some((answer.tag, answer.d2))
}

// Centres and radii.

/// Balls at the distance of each sample, around each of these centres; at most so many for each pair of tables.
fn around(compared: &mut Compared, centres: fn(&[Sample]) -> Vec<Codes>, most: usize, mut state: u64) {
    for tables in each(small_sets()) {
        let samples = samples_of(&tables);
        let at_each = |&centre: &Codes| radii(&samples, centre).into_iter().map(move |radius| (centre, radius));
        let all: Vec<(Codes, u32)> = centres(&samples).iter().flat_map(at_each).collect();
        for (centre, radius) in some(all, most, &mut state) {
            ask(compared, &tables, centre, radius);
        }
    }
}

#[test]
fn around_samples() {
    let mut compared = Compared::default();
    around(&mut compared, centres, 500, 1);
    compared.print("nearest around samples");
}

#[test]
fn on_planes() {
    let mut compared = Compared::default();
    around(&mut compared, centres_on_planes, 300, 2);
    compared.print("nearest on planes");
}

/// A sample is found exactly where the radius is over its distance: at a distance that is a square, and at others.
/// Tag 0 at distance 0 is a find too.
#[test]
fn radii_of_exactly_a_distance() {
    let mut compared = Compared::default();
    let squares =
        [[3, 4, 0], [2, 3, 6], [0, 0, 1], [48_000, 0, 36_000], [36_000, 48_000, 0], [1, 1, 1], [MOST_CODE; 3]];
    for codes in squares.into_iter().chain([[0; 3]]) {
        let mirrored = codes.map(|code| MOST_CODE - code);
        for (at, centre) in [(codes, [0; 3]), ([0; 3], codes), (mirrored, [MOST_CODE; 3]), ([MOST_CODE; 3], mirrored)] {
            let alone = tagged([at]);
            let twice = tagged([at, at]);
            // One that is farther, or as far where there is none, comes in first.
            let after = tagged([at.map(|code| MOST_CODE - code), at]);
            for (samples, bucket) in [(&alone, 1), (&twice, 1), (&twice, 2), (&after, 1), (&after, 16)] {
                let tables = Tables::of(exact(samples, bucket));
                let d2 = samples.iter().map(|sample| distance(sample.codes, centre)).min().unwrap();
                for radius in radii_at(d2).into_iter().chain([0, 1, MOST_CODE + 1, 113_510, MOST_RADIUS]) {
                    let answer = ask(&mut compared, &tables, centre, radius);
                    let within = radius as u64 * radius as u64 > d2;
                    assert_eq!(found(&answer).map(|(_, d2)| d2), within.then_some(d2));
                }
            }
        }
    }
    compared.print("radii of exactly a distance");
}

/// Nothing in the set, nothing within a radius of 0, and nothing just within one.
#[test]
fn none_within() {
    let mut compared = Compared::default();
    for tables in each(small_sets()) {
        let samples = samples_of(&tables);
        for centre in centres(&samples).into_iter().chain([[0; 3], [MOST_CODE; 3]]).take(60) {
            let least = samples.iter().map(|sample| distance(sample.codes, centre)).min();
            let within = least.map_or(MOST_RADIUS, |d2| radii_at(d2)[1]);
            for radius in [0, within / 2, within] {
                assert_eq!(found(&ask(&mut compared, &tables, centre, radius)), None);
            }
        }
    }
    compared.print("none within");
}

// Large sets, floats, numbers.

#[test]
fn large_sets_asked() {
    let mut compared = Compared::default();
    large(&mut compared, any_query, 8, 5);
    compared.print("large sets");
}

/// Tables as long as any set needs, and longer.
#[test]
fn longest_tables() {
    let mut compared = Compared::default();
    let mut state = 6;
    for (colours, bucket) in [(scattered(MOST_SAMPLES, 32), 16), (close_pairs(MOST_SAMPLES, 33), 1)] {
        for more in [0, 7] {
            let bin = exact(&tagged(colours.clone()), bucket);
            let tables = Tables::of(longer(&longest(bin), more, more));
            for _ in 0..15 {
                compared.query(&tables, &any_query(&tables.samples, &mut state), &[]);
            }
        }
    }
    compared.print("longest tables");
}

/// Floats that are refused, in each place; minus zero, and floats at the ends, which are not.
#[test]
fn floats() {
    let mut compared = Compared::default();
    let sets = vec![tagged([]), tagged([[0; 3]]), tagged(grid(&[0, 32_767, 32_768])), tagged(scattered(40, 40))];
    for tables in each(sets) {
        let query = nearest([9; 3], 70_000);
        for at in 0..4 {
            let bad = if at < 3 { bad_channels() } else { bad_radii() };
            for v in bad {
                assert_eq!(compared.query(&tables, &with_float(&query, at, v), &[]).number, 9, "{v}");
            }
            assert_eq!(compared.query(&tables, &with_float(&query, at, -0.0), &[]).number, 0);
        }
        let edges = [BAD_CHANNEL, GREATEST_RADIUS, least_float(1) - 1].map(f32::from_bits);
        for v in [1.5, f32::MIN_POSITIVE, 1e-45].into_iter().chain(edges) {
            assert_eq!(compared.query(&tables, &with_float(&query, 3, v), &[]).number, 0);
        }
    }
    compared.print("floats");
}

/// The floats on either side of a code, and some between it and the next, as channels and as radii.
#[test]
fn floats_between_codes() {
    let mut compared = Compared::default();
    let mut state = 7;
    for tables in each(small_sets()).filter(|tables| (2..30).contains(&sample_count(&tables.samples))) {
        for _ in 0..30 {
            let v = float(any_codes(&tables.samples, &mut state)[0]);
            let bits = v.to_bits();
            let near = [bits + 1, bits.saturating_sub(1), (v + float(1) / 2.0).to_bits(), bits + 2];
            for v in near.map(f32::from_bits).into_iter().filter(|&v| good_channel(v)) {
                let at = below(4, &mut state);
                compared.query(&tables, &with_float(&any_nearest(&tables.samples, &mut state), at, v), &[]);
            }
        }
    }
    compared.print("floats between codes");
}

/// The tables are judged before the query: every combination of tables that are too short and floats that are not good.
#[test]
fn questions_in_order() {
    let mut compared = Compared::default();
    let (samples, octants) = exact(&tagged([[5; 3]; 3]), 2).tables();
    let good = nearest([5; 3], 9);
    let [channel, radius] = [BAD_CHANNEL, BAD_RADIUS].map(f32::from_bits);
    let bad = [with_float(&good, 3, radius), with_float(&good, 1, channel), with_float(&good, 2, f32::NAN)];
    for (n, m) in too_short_cuts(&samples, &octants) {
        let tables = Tables::of_words(&samples[..n], &octants[..m]);
        bad.iter().chain([&good]).for_each(|query| assert_eq!(compared.query(&tables, query, &[]).number, 1));
    }
    let tables = Tables::of_words(&samples, &octants);
    bad.iter().for_each(|query| assert_eq!(compared.query(&tables, query, &[]).number, 9));
    assert_eq!(found(&compared.query(&tables, &good, &[])), Some((0, 0)));
    compared.print_all_seen("questions in order", NEAREST);
}

/// Cases g and i of document 01.
#[test]
fn cases() {
    let mut compared = Compared::default();
    let three =
        [Sample { tag: 7, codes: [0; 3] }, Sample { tag: 8, codes: [MOST_CODE; 3] }, Sample { tag: 9, codes: [0; 3] }];
    let mut tables = Tables::of(exact(&three, 2));
    assert_eq!(found(&ask(&mut compared, &tables, [0; 3], 1)), Some((7, 0)));
    for call in [Call::Remove(7), Call::Add(7, [0; 3])] {
        assert_eq!(compared.call(&mut tables, &call), (0, 0));
        assert_eq!(found(&ask(&mut compared, &tables, [0; 3], 1)), Some((9, 0)));
    }
    let alone = Tables::of(exact(&[Sample { tag: 1, codes: [3, 4, 0] }], 2));
    assert_eq!([5, 6].map(|radius| found(&ask(&mut compared, &alone, [0; 3], radius))), [None, Some((1, 25))]);
    compared.print("cases");
}

#[test]
fn call_sequences() {
    let mut compared = Compared::default();
    sequences(&mut compared, any_query, 60, 120, 8);
    compared.print("call sequences");
}

// Tables that are not sound.

#[test]
fn damaged_tables() {
    in_time(60, || {
        let mut compared = Compared::default();
        damaged(&mut compared, any_query, 5, 1, 11);
        compared.print_all_seen("damaged tables", NEAREST.chain(NEAREST_NOT_SOUND));
    });
}

#[test]
fn damaged_large_tables() {
    in_time(60, || {
        let mut compared = Compared::default();
        damage::large(307, &mut seeing(&mut compared, any_query, 1, 4, &mut 12));
        compared.print("damaged large tables");
    });
}

#[test]
fn edited_tables() {
    in_time(60, || {
        let mut compared = Compared::default();
        edited(&mut compared, any_query, 20_000, 13);
        compared.print_all_seen("edited tables", NEAREST_NOT_SOUND);
    });
}

#[test]
fn words_that_point_everywhere() {
    in_time(60, || {
        let mut compared = Compared::default();
        pointed(&mut compared, any_query, 1, 14);
        compared.print_all_seen("words that point everywhere", NEAREST_NOT_SOUND);
    });
}

/// The same, in tables as long as any set needs.
#[test]
fn long_tables_that_point_everywhere() {
    in_time(60, || {
        let mut compared = Compared::default();
        let mut state = 15;
        damage::pointing(MOST_SAMPLES, 3_000, 23, &mut 16, &mut seeing(&mut compared, any_query, 1, 8, &mut state));
        damage::pointing(
            MOST_SAMPLES,
            MOST_OCTANTS,
            131,
            &mut 17,
            &mut seeing(&mut compared, any_query, 1, 6, &mut state),
        );
        compared.print("long tables that point everywhere");
    });
}

/// The colour of a row with one bit of one channel flipped: a centre whose way parts from that sample's at any depth,
/// so that the search goes down a way and then off it.
fn off_the_way(samples: &[u32], state: &mut u64) -> Codes {
    let mut codes = row_codes(samples, state);
    codes[below(3, state)] ^= 1 << below(CODE_COUNT.trailing_zeros() as usize, state);
    codes
}

/// The call stays within the stack that the header says, on the deepest tree and on words that lead as deep.
#[test]
fn within_the_stack() {
    let mut tables = vec![exact(&tagged(close_pairs(MOST_SAMPLES, 36)), 1).tables()];
    damage::pointing(60, 300, 41, &mut 18, &mut |samples, octants| tables.push((samples.to_vec(), octants.to_vec())));
    let mut state = 19;
    in_stack_of_a_query(move || {
        for (samples, octants) in &tables {
            for _ in 0..80 {
                for centre in [row_codes(samples, &mut state), off_the_way(samples, &mut state)] {
                    _ = hubeltxa::lent::nearest(samples, octants, centre.map(float), float(MOST_RADIUS));
                }
            }
        }
    });
}

/// The same from corners, on tables that lead down by one way alone or to one row again and again. Their samples are
/// measured at the last depth alone, so a search that finds one went down as far.
#[test]
fn within_the_stack_from_corners() {
    let tables: Vec<deep::Words> =
        deep::lone_pairs().into_iter().chain(deep::chains()).chain([deep::leading_back()]).collect();
    in_stack_of_a_query(move || {
        for ((samples, octants), centre) in tables.iter().flat_map(|words| deep::corners().map(move |at| (words, at))) {
            let found = hubeltxa::lent::nearest(samples, octants, centre.map(float), float(MOST_RADIUS));
            assert!(matches!(found, Ok(Some(_))));
        }
    });
}

// Long.

#[test]
#[ignore = "long: many centres and radii"]
fn nearest_long() {
    let mut compared = Compared::default();
    around(&mut compared, centres, 6_000, 1_001);
    around(&mut compared, centres_on_planes, 6_000, 1_002);
    large(&mut compared, any_query, 100, 1_005);
    (0..10).for_each(|seed| sequences(&mut compared, any_query, 100, 200, 1_010 + seed));
    compared.print("nearest, long");
}

#[test]
#[ignore = "long: every kind of damage"]
fn damaged_tables_long() {
    in_time(1_800, || {
        let mut compared = Compared::default();
        damaged(&mut compared, any_query, 1, 4, 2_000);
        damage::large(20, &mut seeing(&mut compared, any_query, 1, 2, &mut 2_001));
        (0..5).for_each(|seed| edited(&mut compared, any_query, 100_000, 2_010 + seed));
        (0..50).for_each(|seed| pointed(&mut compared, any_query, 1, 2_020 + seed));
        compared.print_all_seen("damaged tables, long", NEAREST_NOT_SOUND);
    });
}
