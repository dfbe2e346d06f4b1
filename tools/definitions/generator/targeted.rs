//! Sequences that meet the edges which chance seldom does.

use crate::calls::{add, ball, in_box, nearest, Sequence};
use crate::floats::{self, shown, shown_panel};
use crate::numbers::*;
use crate::pseudo_random::root;
use crate::sheets::{line, sheet};
use crate::straight_scan::{distance, Call, Codes};

const WHITE: Codes = [MOST_CODE; 3];
const BLACK: Codes = [0; 3];

/// A sequence on tables that hold every sample added, each in a path of octants of its own.
fn roomy(name: String, bucket: u32, calls: Vec<Call>) -> Sequence {
    let adds = calls.iter().filter(|call| matches!(call, Call::Add(..))).count();
    Sequence { name, bucket, sample_words: sample_words(adds), octant_words: octant_words(16 * adds + 1), calls }
}

/// A ball and a nearest query at one place.
fn both(centre: Codes, radius: u32, listing: usize) -> [Call; 2] {
    let (centre, radius) = (shown_panel(centre), shown(radius));
    [ball(centre, radius, &vec![77; listing]), nearest(centre, radius, &[77])]
}

/// The queries in tens, each ten after the same adds: a declaration has a limit of steps.
fn in_tens(name: &str, bucket: u32, adds: Vec<Call>, queries: Vec<Call>) -> Vec<Sequence> {
    let ten = |(k, few): (usize, &[Call])| roomy(format!("{name}-{}", k + 1), bucket, [&adds[..], few].concat());
    queries.chunks(10).enumerate().map(ten).collect()
}

/// A sheet of one line with each byte altered, and sheets of two cut at every length.
fn sheets() -> Vec<Sequence> {
    let good = line(120, [65_535, 7, 0], b"A001");
    let one = sheet(&[good.clone()]);
    let two = sheet(&[good, line(MOST_TAG.into(), [0, 65_535, 32_768], &[b'!'; NAME_COLUMNS])]);
    let mut loads = Vec::new();
    for at in 0..one.len() {
        for byte in *b" 01\n~\x7F\0" {
            let mut altered = one.clone();
            altered[at] = byte;
            loads.push(Call::Load(altered));
        }
    }
    for length in 0..=two.len() {
        loads.push(Call::Load(two[..length].to_vec()));
        if length >= one.len() {
            let mut promised = two[..length].to_vec();
            promised[HEADER_LENGTH - 2] = b'1'; // the count
            loads.push(Call::Load(promised));
        }
    }
    let after_a_clear = |few: &[Call]| few.iter().flat_map(|load| [Call::Clear(1), load.clone()]).collect();
    let sequence = |(k, few): (usize, &[Call])| Sequence {
        name: format!("sheets-{}", k + 1),
        bucket: 2,
        sample_words: sample_words(2) + 1,
        octant_words: octant_words(2),
        calls: after_a_clear(few),
    };
    loads.chunks(20).enumerate().map(sequence).collect()
}

/// The eight colours about the root's middle: the planes between octants part them.
fn planes() -> Vec<Sequence> {
    let about = |k: u32| [32_767 + (k & 1), 32_767 + (k >> 1 & 1), 32_767 + (k >> 2)];
    let adds: Vec<Call> = (0..8).map(|k| add((k as Tag + 5) % 8, about(k))).collect();
    let mut queries = Vec::new();
    for k in [0, 3, 6] {
        let colour = shown_panel(about(k));
        queries.extend([0, 1, 2, 56_755].into_iter().flat_map(|radius| both(about(k), radius, 8)));
        queries.push(in_box(colour, colour, &[9; 2]));
        queries.push(in_box(shown_panel(BLACK), colour, &[9; 8]));
        queries.push(in_box(colour, shown_panel(WHITE), &[9; 8]));
        queries.push(in_box(shown_panel([32_768; 3]), colour, &[9; 8]));
    }
    [1, 7, 8].iter().flat_map(|&b| in_tens(&format!("planes-{b}"), b, adds.clone(), queries.clone())).collect()
}

/// Colours that part at the last depth, and equal ones beyond the bucket size, which never part.
fn last_depth() -> Vec<Sequence> {
    let mut sequences = Vec::new();
    for (k, colour) in [WHITE, [32_767, 32_768, 32_767]].into_iter().enumerate() {
        let mut adds: Vec<Call> = vec![add(99, colour)];
        for channel in 0..3 {
            let mut other = colour;
            other[channel] ^= 1;
            adds.extend([add(2 * channel as Tag, colour), add(2 * channel as Tag + 1, other)]);
        }
        let mut queries: Vec<Call> =
            [0, 1, 2, MOST_RADIUS].into_iter().flat_map(|radius| both(colour, radius, 7)).collect();
        queries.extend(both([colour[0] ^ 1, colour[1] ^ 1, colour[2]], 2, 7));
        for tag in [0, 2, 99, 99] {
            queries.push(Call::Remove(tag));
            queries.extend(both(colour, 2, 4));
        }
        for bucket in [1, 3] {
            sequences.extend(in_tens(&format!("last-depth-{k}-{bucket}"), bucket, adds.clone(), queries.clone()));
        }
    }
    sequences
}

/// Radii of exactly a distance, one less and more.
fn radii() -> Vec<Sequence> {
    let pairs: [(Codes, Codes); 6] = [
        ([3, 4, 0], BLACK),
        ([2, 3, 6], BLACK),
        (WHITE, BLACK),
        ([32_768, 0, 0], [32_767, 0, 0]),
        ([16_383, 16_384, 32_768], [16_383, 16_384, 0]),
        ([60_000, 10, 9], [1_000, 40_000, 65_535]),
    ];
    let mut sequences = Vec::new();
    for (k, (colour, centre)) in pairs.into_iter().enumerate() {
        let whole = root(distance(colour, centre));
        let about = [whole.saturating_sub(1), whole, whole + 1];
        let alone = about.into_iter().flat_map(|radius| both(centre, radius, 2)).collect();
        sequences.extend(in_tens(&format!("alone-{k}"), 1, vec![add(1, colour)], alone));
        let adds = vec![add(1, colour), add(2, colour), add(3, centre)];
        let mut queries: Vec<Call> = about.into_iter().flat_map(|radius| both(centre, radius, 3)).collect();
        queries.extend(both(colour, whole, 2));
        queries.extend(both(colour, whole + 1, 2));
        sequences.extend(in_tens(&format!("radii-{k}"), 1 + k as u32 % 2, adds, queries));
    }
    sequences
}

/// Octants exactly inside a region, and just not: at several depths, and with the farthest and the closest colour at
/// exactly r.
fn inside() -> Vec<Sequence> {
    let mut sequences = Vec::new();
    for depth in [1, 2, 8, 15] {
        let side = CODE_COUNT as u32 >> depth;
        let last = side - 1;
        let adds = vec![add(1, BLACK), add(2, [last; 3]), add(3, [side, 0, 0]), add(4, [last, 0, last])];
        let far = root(distance(BLACK, [last; 3]));
        let mut queries = Vec::new();
        for radius in [far, far + 1, last, side] {
            queries.push(ball(shown_panel(BLACK), shown(radius), &[5; 4]));
            queries.push(ball(shown_panel([last; 3]), shown(radius), &[5; 4]));
        }
        for end in [last.saturating_sub(1), last, side] {
            queries.push(in_box(shown_panel(BLACK), shown_panel([end; 3]), &[5; 4]));
            queries.push(in_box([0x8000_0000; 3], shown_panel([end, last, last]), &[5; 3]));
            queries.push(in_box(shown_panel([1, 0, 0]), shown_panel([side, end, end]), &[5; 4]));
        }
        sequences.extend(in_tens(&format!("inside-{depth}"), 3, adds, queries));
    }
    // The octant of side 2 at `base` has its farthest colour from (2, 2, 1) at 3.
    for base in [0, 32_766, 65_532] {
        let at = |colour: Codes| colour.map(|code| base + code);
        let colours = [[0, 0, 0], [1, 1, 1], [2, 0, 0], [2, 2, 2], [3, 3, 3]];
        let adds = colours.into_iter().zip(1..).map(|(colour, tag)| add(tag, at(colour))).collect();
        let asked = [([2, 2, 1], 2), ([2, 2, 1], 3), ([2, 2, 1], 4), ([0, 0, 2], 1), ([0, 0, 3], 2), ([2, 2, 3], 1)];
        let queries = asked.into_iter().flat_map(|(centre, radius)| both(at(centre), radius, 5)).collect();
        sequences.extend(in_tens(&format!("exactly-{base}"), 2, adds, queries));
    }
    sequences
}

/// Tables with no room, just enough and one row too few.
fn room() -> Vec<Sequence> {
    let load = |tag| Call::Load(sheet(&[line(tag, [65_535, 7, 0], b"A001")]));
    let with_lengths = |name: &str, bucket, sample_words, octant_words, calls: &[Call]| Sequence {
        name: name.to_string(),
        bucket,
        sample_words,
        octant_words,
        calls: calls.to_vec(),
    };
    // Full, with a tag that is known: question 5 comes before 6, and 4 before both.
    let known = [add(1, BLACK), add(1, [5; 3]), add(2, [5; 3]), add(1, [MOST_CODE + 1, 0, 0]), load(1), load(3)];
    let known = [&known[..], &[Call::Remove(2), Call::Remove(1), add(2, [5; 3])]].concat();
    let mut sequences = vec![with_lengths("full-rows", 2, sample_words(1) + 2, octant_words(3), &known)];
    // The tree of black and white is 3 octants, with another black 18.
    let split =
        [add(7, BLACK), add(8, WHITE), add(9, BLACK), add(10, [0, 0, 1]), Call::Remove(8), load(11), add(12, BLACK)];
    let [one, three, all, more] = [1, 3, 18, 19].map(octant_words);
    for length in [one, three - 1, three, all - 1, all, all + 1, more - 1, more] {
        sequences.push(with_lengths(&format!("octant-words-{length}"), 1, sample_words(3), length, &split));
    }
    let queries = both(BLACK, 1, 0);
    let few =
        [&[add(7, BLACK), Call::Remove(7)], &queries[..], &[MOST_BUCKET, MOST_BUCKET + 1, 0].map(Call::Clear)].concat();
    let few = [&few[..], &[Call::Load(sheet(&[])), load(1)]].concat();
    let lengths = [
        ("shortest", SAMPLE_HEADER, OCTANT_HEADER),
        ("no-sample-row", sample_words(1) - 1, octant_words(2) + 7),
        ("no-octant-row", sample_words(3), octant_words(1) - 1),
    ];
    for (name, samples, octants) in lengths {
        sequences.push(with_lengths(name, 1, samples, octants, &few));
    }
    sequences
}

/// Tag 0 at d² 0 is found; among equals the earliest in the order is, not the earliest added.
fn found() -> Vec<Sequence> {
    let at = |code: u32, radius: u32| nearest(shown_panel([code, 0, 0]), radius, &[4]);
    let calls = vec![
        at(0, shown(1)),
        add(0, BLACK),
        at(0, shown(1)),
        at(0, 0x8000_0000),
        at(0, least_float(1) - 1),
        Call::Remove(0),
        add(9, [10, 0, 0]),
        add(8, BLACK),
        at(5, shown(6)),
        at(5, shown(5)),
        add(7, [0, 10, 0]),
        add(6, [0, 0, 10]),
        nearest(shown_panel([5; 3]), shown(MOST_RADIUS), &[]),
    ];
    vec![roomy("found".to_string(), 1, calls)]
}

/// Two floats of one code are in order either way round; and each bad float in each place of each query.
fn refused_floats() -> Vec<Sequence> {
    let one = || add(1, [1; 3]);
    let pairs = [
        (least_float(1) + 1, least_float(1)),
        (least_float(2), least_float(2) - 1),
        (0x0000_0001, 0x8000_0000),
        (0x8000_0000, GREATEST_CHANNEL),
    ];
    let boxes = pairs.map(|(low, high)| in_box([low; 3], [high; 3], &[0]));
    let mut sequences = in_tens("one-code", 1, vec![one()], boxes.to_vec());
    let mut queries = Vec::new();
    for (k, bad) in floats::BAD.into_iter().enumerate() {
        let mut panel = [least_float(1); 3];
        panel[k % 3] = bad;
        queries.push(ball(panel, shown(2), &[3]));
        queries.push(nearest(panel, shown(2), &[3]));
        queries.push(ball([0; 3], bad, &[3]));
        queries.push(nearest([0; 3], bad, &[3]));
        queries.push(in_box(panel, [GREATEST_CHANNEL; 3], &[3]));
        queries.push(in_box([0; 3], panel, &[3]));
    }
    sequences.extend(in_tens("bad-floats", 1, vec![one()], queries));
    sequences
}

pub fn all() -> Vec<Sequence> {
    [sheets(), planes(), last_depth(), radii(), inside(), room(), found(), refused_floats()]
        .into_iter()
        .flatten()
        .collect()
}
