//! Balls and boxes, compared with the straight scan call by call.
//!
//! `cargo test --release` takes some seconds. The ignored tests ask more: `make test-long`, or
//! `cargo test --release --test queries -- --ignored`. Each test prints how many calls it compared, by call and number,
//! which `--show-output` shows.

#[path = "../../oracle/straight_scan.rs"]
#[allow(dead_code)]
#[rustfmt::skip]
mod straight_scan;

mod asked;
mod compared;
mod damage;
mod deep;
mod lent;
mod limits;
mod numbers;
mod random;
mod runs;
mod sets;

use asked::*;
use compared::query::listing;
use compared::{each, samples_of, Compared, Tables, LISTINGS, LISTINGS_NOT_SOUND};
use limits::*;
use numbers::*;
use random::*;
use runs::*;
use sets::*;
use straight_scan::{distance, Codes, Gesture, Sample};

// Balls.

/// Balls at the distance of each sample, around each of these centres; at most so many for each pair of tables.
fn balls(compared: &mut Compared, around: fn(&[Sample]) -> Vec<Codes>, most: usize, mut state: u64) {
    for tables in each(small_sets()) {
        let samples = samples_of(&tables);
        let at_each = |&centre: &Codes| radii(&samples, centre).into_iter().map(move |radius| (centre, radius));
        let all: Vec<(Codes, u32)> = around(&samples).iter().flat_map(at_each).collect();
        for (centre, radius) in some(all, most, &mut state) {
            compared.query(&tables, &ball(centre, radius), &listing(samples.len() + below(3, &mut state)));
        }
    }
}

#[test]
fn balls_around_samples() {
    let mut compared = Compared::default();
    balls(&mut compared, centres, 500, 1);
    compared.print("balls around samples");
}

#[test]
fn balls_on_planes() {
    let mut compared = Compared::default();
    balls(&mut compared, centres_on_planes, 300, 2);
    compared.print("balls on planes");
}

/// A ball lists a sample exactly where its radius is over the distance: at a distance that is a square, and at others.
#[test]
fn radii_of_exactly_a_distance() {
    let mut compared = Compared::default();
    let squares =
        [[3, 4, 0], [2, 3, 6], [0, 0, 1], [48_000, 0, 36_000], [36_000, 48_000, 0], [1, 1, 1], [MOST_CODE; 3]];
    for codes in squares {
        let mirrored = codes.map(|code| MOST_CODE - code);
        for (at, centre) in [(codes, [0; 3]), ([0; 3], codes), (mirrored, [MOST_CODE; 3]), ([MOST_CODE; 3], mirrored)] {
            let tables = Tables::of(exact(&tagged([at]), 1));
            let d2 = distance(at, centre);
            for radius in radii_at(d2) {
                let given = compared.query_at_lengths(&tables, &ball(centre, radius));
                assert_eq!(given.listed == 1, radius as u64 * radius as u64 > d2);
            }
        }
    }
    compared.print("radii of exactly a distance");
}

// Boxes.

/// Boxes between planes, in all channels or in one.
fn boxes_on_planes(codes: Codes, state: &mut u64) -> Vec<(Codes, Codes)> {
    let planes = plane_codes();
    let between = |_| {
        let (one, other) = (any_of(&planes, state), any_of(&planes, state));
        let (from, to) = (one.min(other), one.max(other));
        let (mut low, mut high) = if below(2, state) == 0 { ([0; 3], [MOST_CODE; 3]) } else { (codes, codes) };
        match below(4, state) {
            3 => (low, high) = ([from; 3], [to; 3]),
            channel => (low[channel], high[channel]) = (from, to),
        }
        (low, high)
    };
    (0..40).map(between).collect()
}

/// Boxes of each kind around samples; at most so many for each pair of tables.
fn boxes(compared: &mut Compared, most: usize, mut state: u64) {
    let state = &mut state;
    for tables in each(small_sets()) {
        let mut samples = samples_of(&tables);
        let rows = samples.len();
        samples.extend(tagged([[0; 3], [MOST_CODE; 3], [32_767; 3], [32_768; 3]]));
        let kinds = |codes: Codes| [boxes_at(codes), octant_boxes(codes), boxes_on_planes(codes, state)].concat();
        let all: Vec<(Codes, Codes)> = samples.iter().map(|sample| sample.codes).flat_map(kinds).collect();
        for (low, high) in some(all, most, state) {
            compared.query(&tables, &box_of(low, high), &listing(rows + below(3, state)));
        }
    }
}

#[test]
fn boxes_around_samples() {
    let mut compared = Compared::default();
    boxes(&mut compared, 800, 3);
    compared.print("boxes around samples");
}

/// A box of one colour, of everything, one code too narrow on each side, and reversed in each channel.
#[test]
fn box_sides() {
    let mut compared = Compared::default();
    for codes in [[1, 2, 3], [0, MOST_CODE, 300], [32_767, 32_768, 16_384], [MOST_CODE - 1; 3]] {
        for tables in each(vec![tagged([codes]), tagged([codes; 20]), tagged([codes, [0; 3], [MOST_CODE; 3]])]) {
            let with_it = samples_of(&tables).iter().filter(|sample| sample.codes == codes).count() as u32;
            let all = samples_of(&tables).len() as u32;
            let mut ask = |low, high| {
                let given = compared.query_at_lengths(&tables, &box_of(low, high));
                (given.number, given.listed)
            };
            assert_eq!(ask(codes, codes), (0, with_it));
            assert_eq!(ask([0; 3], [MOST_CODE; 3]), (0, all));
            for channel in 0..3 {
                let (mut above, mut under) = (codes, codes);
                if codes[channel] < MOST_CODE {
                    above[channel] += 1;
                    assert!(ask(above, [MOST_CODE; 3]).1 <= all - with_it);
                    assert_eq!(ask(above, codes), (9, 0));
                }
                if codes[channel] > 0 {
                    under[channel] -= 1;
                    assert!(ask([0; 3], under).1 <= all - with_it);
                    assert_eq!(ask(codes, under), (9, 0));
                }
            }
        }
    }
    compared.print("box sides");
}

// Queries at random, on any words.

/// A ball or a box; of sixteen, one that is refused by 9.
fn any_query(samples: &[u32], state: &mut u64) -> Gesture {
    let query = if below(2, state) == 0 { any_ball(samples, state) } else { any_box(samples, state) };
    seldom_bad(query, state)
}

// Large sets, listings, floats.

#[test]
fn large_sets_asked() {
    let mut compared = Compared::default();
    large(&mut compared, any_query, 4, 4);
    compared.print("large sets");
}

/// Tables as long as any set needs, and longer.
#[test]
fn longest_tables() {
    let mut compared = Compared::default();
    let mut state = 5;
    for (colours, bucket) in [(scattered(MOST_SAMPLES, 32), 16), (close_pairs(MOST_SAMPLES, 33), 1)] {
        for more in [0, 7] {
            let bin = exact(&tagged(colours.clone()), bucket);
            let tables = Tables::of(longer(&longest(bin), more, more));
            for _ in 0..5 {
                compared.query_at_lengths(&tables, &any_query(&tables.samples, &mut state));
            }
        }
    }
    compared.print("longest tables");
}

/// Listings of every length up to more than what is listed, on sets of a few samples.
#[test]
fn listings() {
    let mut compared = Compared::default();
    let mut state = 6;
    for tables in each(small_sets()).filter(|tables| sample_count(&tables.samples) < 30) {
        let rows = sample_count(&tables.samples);
        for _ in 0..12 {
            let query = any_query(&tables.samples, &mut state);
            let listed = compared.query_at_lengths(&tables, &query).listed as usize;
            for length in 0..rows + 3 {
                let given = compared.query(&tables, &query, &listing(length));
                assert_eq!(given.number == 13, length < listed);
            }
        }
    }
    compared.print("listings");
}

/// Floats that are refused, in each place; minus zero, and floats between codes, which are not.
#[test]
fn floats() {
    let mut compared = Compared::default();
    let sets = vec![tagged([]), tagged([[0; 3]]), tagged(grid(&[0, 32_767, 32_768])), tagged(scattered(40, 40))];
    for tables in each(sets) {
        let long = listing(60);
        let (some_ball, some_box) = (ball([9; 3], 70_000), box_of([0; 3], [MOST_CODE; 3]));
        for at in 0..4 {
            let bad = if at < 3 { bad_channels() } else { bad_radii() };
            for v in bad {
                assert_eq!(compared.query(&tables, &with_float(&some_ball, at, v), &long).number, 9, "{v}");
            }
            assert_eq!(compared.query(&tables, &with_float(&some_ball, at, -0.0), &long).number, 0);
        }
        for at in 0..6 {
            for v in bad_channels() {
                assert_eq!(compared.query(&tables, &with_float(&some_box, at, v), &long).number, 9, "{v}");
            }
            let flat = if at < 3 { some_box } else { box_of([0; 3], [0; 3]) };
            assert_eq!(compared.query(&tables, &with_float(&flat, at, -0.0), &long).number, 0);
        }
        let edges = [BAD_CHANNEL, GREATEST_RADIUS, least_float(1) - 1].map(f32::from_bits);
        for v in [1.5, f32::MIN_POSITIVE, 1e-45].into_iter().chain(edges) {
            assert_eq!(compared.query(&tables, &with_float(&some_ball, 3, v), &long).number, 0);
        }
    }
    compared.print("floats");
}

/// The floats on either side of a code, and some between it and the next, as channels and as radii. A box whose floats
/// have one code passes in either order.
#[test]
fn floats_between_codes() {
    let mut compared = Compared::default();
    let mut state = 7;
    for tables in each(small_sets()).filter(|tables| (2..30).contains(&sample_count(&tables.samples))) {
        let long = listing(40);
        for _ in 0..30 {
            let v = float(any_codes(&tables.samples, &mut state)[0]);
            let bits = v.to_bits();
            let near = [bits + 1, bits.saturating_sub(1), (v + float(1) / 2.0).to_bits(), bits + 2];
            for v in near.map(f32::from_bits).into_iter().filter(|&v| good_channel(v)) {
                let at = below(4, &mut state);
                compared.query(&tables, &with_float(&any_ball(&tables.samples, &mut state), at, v), &long);
                let at = below(6, &mut state);
                compared.query(&tables, &with_float(&any_box(&tables.samples, &mut state), at, v), &long);
            }
            let above = (v + float(1) / 4.0).min(f32::from_bits(GREATEST_CHANNEL));
            let flat = Gesture::Box { low: [above; 3], high: [v; 3] };
            assert_eq!(compared.query(&tables, &flat, &long).number, 0);
        }
    }
    compared.print("floats between codes");
}

/// The tables are judged before the query, the query before the listing: every combination of tables that are too
/// short, a query that is not good and a listing that is too short.
#[test]
fn questions_in_order() {
    let mut compared = Compared::default();
    let (samples, octants) = exact(&tagged([[5; 3]; 3]), 2).tables();
    let queries = [
        (ball([5; 3], 9), false),
        (with_float(&ball([5; 3], 9), 3, f32::from_bits(BAD_RADIUS)), true),
        (with_float(&ball([5; 3], 9), 1, f32::from_bits(BAD_CHANNEL)), true),
        (box_of([0; 3], [9; 3]), false),
        (box_of([0, 6, 0], [9, 5, 9]), true),
        (with_float(&box_of([0; 3], [9; 3]), 5, f32::NAN), true),
    ];
    for (n, m) in too_short_cuts(&samples, &octants).into_iter().chain([(samples.len(), octants.len())]) {
        let tables = Tables::of_words(&samples[..n], &octants[..m]);
        for (query, bad) in &queries {
            for length in [0, 2, 3, 9] {
                let asked = [(too_short(n, m), 1), (*bad, 9), (length < 3, 13)];
                let first = asked.into_iter().find_map(|(no, number)| no.then_some(number)).unwrap_or(0);
                assert_eq!(compared.query(&tables, query, &listing(length)).number, first, "{query:?}, {length} words");
            }
        }
    }
    compared.print_all_seen("questions in order", LISTINGS);
}

/// Cases c to f and i of document 01.
#[test]
fn cases() {
    let mut compared = Compared::default();
    let three =
        [Sample { tag: 7, codes: [0; 3] }, Sample { tag: 8, codes: [MOST_CODE; 3] }, Sample { tag: 9, codes: [0; 3] }];
    let tables = Tables::of(exact(&three, 2));
    let expected: [(u32, &[Tag], u32, u32); 4] =
        [(0, &[], 0, 0), (1, &[7, 9], 2, 2), (113_509, &[7, 9], 3, 1), (113_510, &[7, 9, 8], 1, 0)];
    for (radius, tags, entered, measured) in expected {
        let given = compared.query_at_lengths(&tables, &ball([0; 3], radius));
        assert_eq!(given.listing[..given.listed as usize], *tags);
        assert_eq!((given.entered, given.measured), (entered, measured));
    }
    let alone = Tables::of(exact(&tagged([[3, 4, 0]]), 2));
    assert_eq!([5, 6].map(|radius| compared.query(&alone, &ball([0; 3], radius), &[0]).listed), [0, 1]);
    compared.print("cases");
}

#[test]
fn call_sequences() {
    let mut compared = Compared::default();
    sequences(&mut compared, any_query, 60, 120, 8);
    compared.print("call sequences");
}

// Tables that are not sound.

#[test]
fn damaged_tables() {
    in_time(60, || {
        let mut compared = Compared::default();
        damaged(&mut compared, any_query, 10, 1, 11);
        compared.print_all_seen("damaged tables", LISTINGS.start..LISTINGS_NOT_SOUND.end);
    });
}

#[test]
fn damaged_large_tables() {
    in_time(60, || {
        let mut compared = Compared::default();
        damage::large(307, &mut seeing(&mut compared, any_query, 1, 1, &mut 12));
        compared.print("damaged large tables");
    });
}

#[test]
fn edited_tables() {
    in_time(60, || {
        let mut compared = Compared::default();
        edited(&mut compared, any_query, 10_000, 13);
        compared.print_all_seen("edited tables", LISTINGS_NOT_SOUND);
    });
}

#[test]
fn words_that_point_everywhere() {
    in_time(60, || {
        let mut compared = Compared::default();
        pointed(&mut compared, any_query, 1, 14);
        compared.print_all_seen("words that point everywhere", LISTINGS_NOT_SOUND);
    });
}

/// The same, in tables as long as any set needs.
#[test]
fn long_tables_that_point_everywhere() {
    in_time(60, || {
        let mut compared = Compared::default();
        let mut state = 15;
        damage::pointing(MOST_SAMPLES, 3_000, 23, &mut 16, &mut seeing(&mut compared, any_query, 1, 4, &mut state));
        damage::pointing(
            MOST_SAMPLES,
            MOST_OCTANTS,
            131,
            &mut 17,
            &mut seeing(&mut compared, any_query, 1, 2, &mut state),
        );
        compared.print("long tables that point everywhere");
    });
}

fn ask_all(samples: &[u32], octants: &[u32], queries: &[Gesture], listing: &mut [Tag]) {
    for query in queries {
        _ = match *query {
            Gesture::Ball { centre, radius } => hubeltxa::lent::ball(samples, octants, centre, radius, listing),
            Gesture::Box { low, high } => hubeltxa::lent::box_(samples, octants, low, high, listing),
            Gesture::Near { .. } => unreachable!(),
        };
    }
}

/// The calls stay within the stack that the header says, on the deepest tree and on words that lead as deep.
#[test]
fn within_the_stack() {
    let mut tables = vec![exact(&tagged(close_pairs(MOST_SAMPLES, 36)), 1).tables()];
    damage::pointing(60, 300, 41, &mut 18, &mut |samples, octants| tables.push((samples.to_vec(), octants.to_vec())));
    let mut state = 19;
    let queries: Vec<Vec<Gesture>> =
        tables.iter().map(|(samples, _)| (0..40).map(|_| any_query(samples, &mut state)).collect()).collect();
    let mut listing = vec![0; MOST_SAMPLES];
    in_stack_of_a_query(move || {
        for ((samples, octants), queries) in tables.iter().zip(&queries) {
            ask_all(samples, octants, queries, &mut listing);
            ask_all(samples, octants, queries, &mut listing[..20]);
        }
    });
}

/// The same around single colours in corners, on tables that lead down to them: an octant of each depth is entered.
#[test]
fn within_the_stack_at_corners() {
    let all = deep::chains().pop().unwrap();
    let tables = deep::lone_pairs().into_iter().zip(deep::corners());
    let tables: Vec<_> = tables.chain(deep::corners().map(|corner| (all.clone(), corner))).collect();
    in_stack_of_a_query(move || {
        for ((samples, octants), corner) in &tables {
            let (centre, mut listing) = (corner.map(float), [0; 2]);
            let ball =
                hubeltxa::lent::ball(samples, octants, centre, float(1), &mut listing).map(|found| found.entered);
            let boxed = hubeltxa::lent::box_(samples, octants, centre, centre, &mut listing).map(|found| found.entered);
            assert_eq!([ball, boxed], [Ok(deep::DEPTHS as u32); 2]);
        }
    });
}

// Long.

#[test]
#[ignore = "long: many balls and boxes"]
fn queries_long() {
    let mut compared = Compared::default();
    balls(&mut compared, centres, 6_000, 1_001);
    balls(&mut compared, centres_on_planes, 6_000, 1_002);
    boxes(&mut compared, 10_000, 1_003);
    large(&mut compared, any_query, 60, 1_004);
    (0..10).for_each(|seed| sequences(&mut compared, any_query, 100, 200, 1_010 + seed));
    compared.print("queries, long");
}

#[test]
#[ignore = "long: every kind of damage"]
fn damaged_tables_long() {
    in_time(1_800, || {
        let mut compared = Compared::default();
        damaged(&mut compared, any_query, 1, 2, 2_000);
        damage::large(20, &mut seeing(&mut compared, any_query, 1, 1, &mut 2_001));
        (0..5).for_each(|seed| edited(&mut compared, any_query, 100_000, 2_010 + seed));
        (0..50).for_each(|seed| pointed(&mut compared, any_query, 1, 2_020 + seed));
        compared.print_all_seen("damaged tables, long", LISTINGS_NOT_SOUND);
    });
}
