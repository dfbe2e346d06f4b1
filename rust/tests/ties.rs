//! Ties of nearest, compared with the straight scan call by call: several samples that are as far from the centre as the
//! one that is found, which is the first of them in the order of the octree, whatever the turns of the search.
//!
//! `cargo test --release` takes some seconds. The ignored test asks more: `make test-long`, or
//! `cargo test --release --test ties -- --ignored`. Each test prints how many calls it compared, by call and number, and
//! how many ties of each kind, which `--show-output` shows; so many of them are asserted.

#[path = "../../oracle/straight_scan.rs"]
#[allow(dead_code)]
#[rustfmt::skip]
mod straight_scan;

mod asked;
mod compared;
mod lent;
mod numbers;
mod random;
mod sets;
mod tied;

use asked::*;
use compared::{each, samples_of, Compared, Tables};
use numbers::*;
use random::*;
use sets::*;
use straight_scan::{distance, Codes};
use tied::*;

/// Samples mirrored around a centre on each axis and on diagonals, all of them or some, in any sequence, some of them
/// twice or more; and with others that are one code nearer or farther.
fn mirrors(ties: &mut Ties, rounds: usize, mut state: u64) {
    let state = &mut state;
    let steps = [0, 1, 2, 3, 5, 255, 256, 4_096, 16_383, 16_384, 32_767];
    for _ in 0..rounds {
        let centre = match below(3, state) {
            0 => [any_of(&plane_codes(), state); 3],
            1 => [0; 3].map(|_: u32| any_of(&plane_codes(), state)),
            _ => [0; 3].map(|_: u32| below(CODE_COUNT, state) as u32),
        };
        let by = match below(4, state) {
            0 => [any_of(&steps, state), 0, 0],
            1 => [any_of(&steps, state); 3],
            2 => [any_of(&steps, state), any_of(&steps, state), 0],
            _ => [0; 3].map(|_: u32| any_of(&steps, state)),
        };
        let mut colours = shuffled(mirrored(centre, by), state);
        colours.truncate(1 + below(48, state));
        for _ in 0..below(4, state) {
            let Some(&codes) = colours.first() else { break };
            let at = below(colours.len(), state);
            colours.insert(at, codes);
        }
        if below(2, state) == 0 {
            let others: Vec<Codes> = colours.iter().flat_map(|&codes| beside(codes)).collect();
            colours.extend(some(others, 5, state));
            colours = shuffled(colours, state);
        }
        let tables = Tables::of(exact(&tagged(colours), any_of(&BUCKETS, state)));
        ties.ask(&tables, centre);
        for centre in some(beside(centre), 2, state) {
            ties.ask(&tables, centre);
        }
    }
}

/// Colours of a lattice that has a plane between octants on each of its steps, or next to it, with centres on it and
/// half way: octants whose closest colour is as far as what was found before, and holds a sample.
fn lattices(ties: &mut Ties, rounds: usize, mut state: u64) {
    let state = &mut state;
    for _ in 0..rounds {
        let step = 1 << below(13, state);
        let places = 2 + below(6, state);
        let origin = [0; 3].map(|_: u32| (below(CODE_COUNT - places * step, state) / step * step) as u32);
        let turn = any_of(&[0, step as u32 - 1], state);
        let any = |state: &mut u64| origin.map(|code| (code + (below(places, state) * step) as u32) ^ turn);
        let colours: Vec<Codes> = (0..2 + below(60, state)).map(|_| any(state)).collect();
        let tables = Tables::of(exact(&tagged(colours), any_of(&BUCKETS, state)));
        for _ in 0..4 {
            let half = any_of(&[0, step as u32 / 2], state);
            let centre = any(state).map(|code| (code + half * below(2, state) as u32).min(MOST_CODE));
            ties.ask(&tables, centre);
        }
    }
}

#[test]
fn mirrored_samples() {
    let mut ties = Ties::default();
    mirrors(&mut ties, 4_000, 3);
    ties.print(
        "mirrored samples",
        Seen {
            none: 12_000,
            apart: 7_000,
            turned: 4_000,
            plane: 2_000,
            edge: 700,
            corner: 600,
            beyond: 150,
            together: 7_000,
            alike: 6_000,
        },
    );
}

#[test]
fn samples_on_a_lattice() {
    let mut ties = Ties::default();
    lattices(&mut ties, 3_000, 4);
    ties.print(
        "samples on a lattice",
        Seen {
            none: 12_000,
            apart: 4_500,
            turned: 2_400,
            plane: 1_800,
            edge: 500,
            corner: 140,
            beyond: 70,
            together: 3_000,
            alike: 7_000,
        },
    );
}

/// Two samples as far from a centre, in each two of the eight octants around it, with each of them first.
#[test]
fn two_octants() {
    let mut ties = Ties::default();
    for (plane, by) in [(32_768, 1), (32_768, 32_767), (16_384, 1), (49_152, 9_000), (32_769, 1), (32_767, 1), (2, 1)] {
        let corner = |k: u32| [0, 1, 2].map(|h| if k >> h & 1 == 1 { plane + by } else { plane - by });
        for (one, other) in (0..8).flat_map(|one| (0..8).map(move |other| (one, other))) {
            for bucket in BUCKETS {
                let tables = Tables::of(exact(&tagged([corner(one), corner(other)]), bucket));
                ties.ask(&tables, [plane; 3]);
                if bucket == 1 && one != other {
                    let first = samples_of(&tables)[tables.set.as_ref().unwrap().walk()[0]].tag;
                    let answer = ties.compared.query(&tables, &nearest([plane; 3], MOST_RADIUS), &[]);
                    assert_eq!(answer.tag, first);
                }
            }
        }
    }
    ties.print(
        "two octants",
        Seen { none: 1_500, apart: 700, turned: 500, corner: 700, together: 2_000, alike: 400, ..Seen::default() },
    );
}

// Two siblings.

/// Depths of octants: the whole, its children, in the middle, and the last two that can be split.
const DEPTHS: [u32; 5] = [0, 1, 7, 14, 15];

/// Bucket sizes by which small sets are split.
const SIZES: [u32; 3] = [1, 2, 16];

fn in_range(codes: &Codes) -> bool {
    codes.iter().all(|&code| code <= MOST_CODE)
}

/// An octant of this depth.
fn any_octant(depth: u32, state: &mut u64) -> Octant {
    let side = CODE_COUNT >> depth;
    Octant { low: [0; 3].map(|_: u32| (below(1 << depth, state) * side) as u32), half: side as u32 / 2 }
}

/// A centre in a child of the octant, close to the planes between the children or anywhere.
fn centre_in(octant: &Octant, child: usize, state: &mut u64) -> Codes {
    let width = any_of(&[1, 3, octant.half], state).min(octant.half) as usize;
    let mut code = |h: usize| {
        let by = below(width, state) as u32;
        let middle = octant.low[h] + octant.half;
        if child >> h & 1 == 1 {
            middle + by
        } else {
            middle - 1 - by
        }
    };
    [0, 1, 2].map(|h| code(h))
}

/// The same, moved out of the octant in some of the channels, by a code or a few. It can be out of range.
fn centre_outside(octant: &Octant, child: usize, state: &mut u64) -> Codes {
    let mut centre = centre_in(octant, child, state);
    let moved = 1 + below(7, state);
    for h in (0..3).filter(|h| moved >> h & 1 == 1) {
        let by = below(3, state) as u32;
        let end = octant.low[h] + 2 * octant.half;
        centre[h] = if child >> h & 1 == 1 { end + by } else { octant.low[h].wrapping_sub(1 + by) };
    }
    centre
}

/// Colours by the child that they are in.
type Children = [Vec<Codes>; 8];

/// Colours of an octant, by child: in each channel close to the plane between the halves, at the ends, and as far from
/// the centre as one of these on its other side.
fn colours_in(octant: &Octant, centre: Codes, state: &mut u64) -> Children {
    let places = |h: usize| {
        let (low, middle, end) = (octant.low[h], octant.low[h] + octant.half, octant.low[h] + 2 * octant.half);
        let near = (1..4).flat_map(|by| [middle.wrapping_sub(by), middle + by - 1]).chain([low, end - 1]);
        let mut all: Vec<u32> = near.flat_map(|code| [code, (2 * centre[h]).wrapping_sub(code)]).collect();
        all.retain(|code| (low..end).contains(code));
        all.sort();
        all.dedup();
        all
    };
    let [reds, greens, blues] = [0, 1, 2].map(places);
    let mut children: Children = Default::default();
    for &red in &reds {
        for &green in &greens {
            blues.iter().for_each(|&blue| children[octant.child([red, green, blue])].push([red, green, blue]));
        }
    }
    children.map(|colours| shuffled(colours, state))
}

/// A colour of each of two children: two that are as far from a centre, if some tries find them.
fn tie(centre: Codes, ones: &[Codes], others: &[Codes]) -> Option<[Codes; 2]> {
    let equal = |one: Codes| others.iter().find(move |&&other| distance(one, centre) == distance(other, centre));
    ones.iter().take(60).find_map(|&one| equal(one).map(|&other| [one, other]))
}

/// Colours of an octant that is split: each of the two as often as it takes, or once, with others that are as far or
/// farther.
fn crowd(pair: [Codes; 2], centre: Codes, colours: &Children, bucket: u32, state: &mut u64) -> Vec<Codes> {
    let bucket = bucket as usize;
    if below(3, state) == 0 {
        return shuffled(pair.repeat(bucket / 2 + 1), state);
    }
    let least = distance(pair[0], centre) + below(2, state) as u64;
    let far: Vec<Codes> = colours.concat().into_iter().filter(|&codes| distance(codes, centre) >= least).collect();
    let others = (0..bucket).map(|_| if far.is_empty() { pair[0] } else { any_of(&far, state) });
    let all = pair.into_iter().chain(others.collect::<Vec<_>>()).collect();
    shuffled(all, state)
}

/// Each two of eight children, the lower one first, as it is in the order.
fn pairs() -> impl Iterator<Item = [usize; 2]> {
    (0..64).map(|i| [i / 8, i % 8]).filter(|[found, other]| found < other)
}

/// Ties of each kind in each two children of an octant, on each way down, with the centre inside and outside.
fn all_siblings(depth: u32) -> impl Iterator<Item = Siblings> {
    pairs().flat_map(move |[found, other]| {
        let kind = |i: usize| [Kind::Before, Kind::After, Kind::Barely][i / 16];
        (0..48).map(move |i| Siblings { depth, way: i % 8, outside: i & 8 > 0, found, other, kind: kind(i) })
    })
}

/// Whether such a tie is sought: there can be one, and it is not too seldom. No centre is outside the whole. In an octant of side 4, each colour of the child on
/// the way is closer to a centre outside than any of the child across from it; and from inside the closest of a child
/// across one plane is not as far as one across the two others. In one of side 2, children are single colours; those
/// that differ from the one on the way in as many channels can be as far. In all others there are some, somewhere; but of
/// two children across from each other the closest colour of one is seldom as far from outside, and none is sought.
fn is_sought(siblings: &Siblings) -> bool {
    let Siblings { depth, way, outside, found, other, kind } = *siblings;
    let turns = [way ^ found, way ^ other];
    let possible = match CODE_COUNT >> depth {
        CODE_COUNT => !outside,
        4 if outside => !(turns.contains(&0) && turns.contains(&7)),
        4 => kind != Kind::Barely || turns != [4, 3],
        2 => turns[0].count_ones() == turns[1].count_ones(),
        _ => true,
    };
    possible && (kind != Kind::Barely || turns[1] < turns[0] && !(outside && found ^ other == 7))
}

/// A centre and samples that may have such a tie, if a try finds them.
fn tie_of(siblings: &Siblings, bucket: u32, state: &mut u64) -> Option<(Codes, Vec<Codes>)> {
    let Siblings { depth, way, outside, found, other, kind } = *siblings;
    let octant = any_octant(depth, state);
    let centre = if outside { centre_outside(&octant, way, state) } else { centre_in(&octant, way, state) };
    let colours = in_range(&centre).then(|| colours_in(&octant, centre, state))?;
    let closest = [octant.closest(found, centre)];
    let pair = tie(centre, if kind == Kind::Barely { &closest } else { &colours[found] }, &colours[other])?;
    Some((centre, crowd(pair, centre, &colours, bucket, state)))
}

/// Samples that are as far, in each two children of an octant, until each tie that is sought was met; it panics if one
/// is not.
fn siblings(ties: &mut Ties, depth: u32, bucket: u32, mut state: u64) {
    let state = &mut state;
    ties.met.clear();
    for siblings in all_siblings(depth).filter(is_sought) {
        let mut tries = (0..10_000).filter_map(|_| tie_of(&siblings, bucket, state));
        while !ties.met.contains(&siblings) {
            let (centre, crowd) = tries.next().unwrap_or_else(|| panic!("no tie of {siblings:?}"));
            ties.ask(&Tables::of(exact(&tagged(crowd), bucket)), centre);
        }
    }
}

/// In octants of each depth every tie that is sought is met; and each two children have one with the centre beside none
/// of the planes between the eight, beside one, two and three.
fn each_two_siblings(bucket: u32, least: Seen) {
    let mut ties = Ties::default();
    for depth in 0..CODE_COUNT.trailing_zeros() {
        siblings(&mut ties, depth, bucket, (100 * depth + bucket) as u64);
    }
    for ([found, other], planes) in pairs().flat_map(|pair| (0..4).map(move |planes| (pair, planes))) {
        assert!(ties.beside.contains(&(found, other, planes)), "children {found} and {other}, {planes} planes");
    }
    ties.print(&format!("each two siblings, bucket size {bucket}"), least);
}

#[test]
fn siblings_of_one_sample() {
    each_two_siblings(
        1,
        Seen {
            none: 22_000,
            apart: 44_000,
            turned: 25_000,
            plane: 12_000,
            edge: 6_000,
            corner: 10_000,
            beyond: 21_000,
            alike: 100,
            ..Seen::default()
        },
    );
}

#[test]
fn siblings_of_two_samples() {
    each_two_siblings(
        2,
        Seen {
            none: 20_000,
            apart: 40_000,
            turned: 22_500,
            plane: 11_000,
            edge: 5_000,
            corner: 9_000,
            beyond: 18_500,
            together: 50,
            alike: 13_000,
        },
    );
}

#[test]
fn siblings_of_sixteen_samples() {
    each_two_siblings(
        16,
        Seen {
            none: 19_000,
            apart: 38_000,
            turned: 22_000,
            plane: 10_000,
            edge: 5_000,
            corner: 8_500,
            beyond: 18_000,
            together: 500,
            alike: 13_000,
        },
    );
}

// Planes.

/// In each channel the first code above a plane between octants: between the children of one octant, or each of any.
fn any_planes(state: &mut u64) -> Codes {
    let octant = any_octant(any_of(&DEPTHS, state), state);
    let apart = below(2, state) == 0;
    [0, 1, 2].map(|h| {
        let Octant { low, half } = if apart { any_octant(any_of(&DEPTHS, state), state) } else { octant };
        low[h] + half
    })
}

/// The colours in range that are in a cube of this side, from so many codes below the planes on.
fn colours_around(planes: Codes, under: u32, side: u32) -> Vec<Codes> {
    let moved = |by: Codes| [0, 1, 2].map(|h| (planes[h] + by[h]).wrapping_sub(under));
    let all = grid(&(0..side).collect::<Vec<_>>()).into_iter().map(moved);
    all.filter(in_range).collect()
}

/// Samples on both sides of three planes, next to all of them or within two codes; each centre that is on the planes or
/// one code from them.
fn corners(ties: &mut Ties, rounds: usize, mut state: u64) {
    let state = &mut state;
    for _ in 0..rounds {
        let planes = any_planes(state);
        let under = 1 + below(2, state) as u32;
        let mut colours = shuffled(colours_around(planes, under, 2 * under), state);
        colours.truncate(2 + below(under as usize * 5, state));
        let again = below(2, state);
        colours.extend(some(colours.clone(), again, state));
        let tables = Tables::of(exact(&tagged(colours), any_of(&SIZES, state)));
        colours_around(planes, 1, 3).into_iter().for_each(|centre| ties.ask(&tables, centre));
    }
}

#[test]
fn corners_between_octants() {
    let mut ties = Ties::default();
    corners(&mut ties, 700, 5);
    ties.print(
        "corners between octants",
        Seen {
            none: 18_000,
            apart: 4_500,
            turned: 3_000,
            plane: 1_800,
            edge: 1_500,
            corner: 1_300,
            beyond: 140,
            together: 2_500,
            alike: 5_000,
        },
    );
}

/// The far half in one, two or three channels, which is above the centre or below it, and a sample on its closest
/// code; one mirrored to the near side, as far or one code nearer or farther; and one that is mirrored in some channels.
fn far_halves(ties: &mut Ties, rounds: usize, mut state: u64) {
    let state = &mut state;
    for (far, below_it, off) in (0..rounds * 7 * 8 * 3).map(|i| (1 + i % 7, i / 7 % 8, i / 56 % 3)) {
        let planes = any_planes(state);
        let closest = [0, 1, 2].map(|h| planes[h] - (below_it >> h & 1) as u32);
        let centre = [0, 1, 2].map(|h| match any_of(&[1, 2, 3, 4, 7, 100, 4_095, 4_096], state) {
            _ if far >> h & 1 == 0 => closest[h],
            by if below_it >> h & 1 == 1 => closest[h] + by,
            by => closest[h].wrapping_sub(by),
        });
        let mirrored = [0, 1, 2].map(|h| (2 * centre[h]).wrapping_sub(closest[h]));
        let channel = (0..3).cycle().skip(below(3, state)).find(|h| far >> h & 1 == 1).unwrap();
        let mut nearly = mirrored;
        nearly[channel] = (mirrored[channel] + off as u32).wrapping_sub(1);
        let mixed = [0, 1, 2].map(|h| any_of(&[closest, mirrored], state)[h]);
        let colours = [closest, nearly, mixed].into_iter().filter(in_range).collect();
        if in_range(&centre) {
            let tables = Tables::of(exact(&tagged(shuffled(colours, state)), any_of(&[1, 2], state)));
            ties.ask(&tables, centre);
        }
    }
}

#[test]
fn far_halves_a_code_apart() {
    let mut ties = Ties::default();
    far_halves(&mut ties, 60, 6);
    ties.print(
        "far halves a code apart",
        Seen {
            none: 9_500,
            apart: 10_000,
            turned: 5_000,
            plane: 3_000,
            edge: 1_700,
            corner: 250,
            beyond: 30,
            together: 700,
            alike: 4_000,
        },
    );
}

/// Asks around centres of one kind: most of them with a tie of unlike colours, if some tries find one.
fn ask_around(ties: &mut Ties, tables: &Tables, any: impl Fn(&mut u64) -> Codes, state: &mut u64) {
    let samples = samples_of(tables);
    let tied = |centre: &Codes| {
        let least = samples.iter().map(|sample| distance(sample.codes, *centre)).min();
        let mut equal = samples.iter().filter(|sample| Some(distance(sample.codes, *centre)) == least);
        let first = equal.next();
        equal.any(|sample| Some(sample.codes) != first.map(|first| first.codes))
    };
    for tries in [1, 12, 12, 12] {
        let centres: Vec<Codes> = (0..tries).map(|_| any(state)).filter(in_range).collect();
        let centre = centres.iter().find(|centre| tied(centre)).or(centres.first());
        centre.into_iter().for_each(|&centre| ties.ask(tables, centre));
    }
}

/// A code as seen from a corner of an octant, in one channel: so far into the octant, or so far outside.
fn from_corner(octant: &Octant, corner: usize, h: usize, inside: bool, by: u32) -> u32 {
    match (corner >> h & 1 == 1, inside) {
        (true, true) => octant.low[h] + 2 * octant.half - 1 - by,
        (true, false) => octant.low[h] + 2 * octant.half + by,
        (false, true) => octant.low[h] + by,
        (false, false) => octant.low[h].wrapping_sub(1 + by),
    }
}

/// A set in one corner of an octant, and centres outside it, in one or more channels.
fn outside(ties: &mut Ties, rounds: usize, mut state: u64) {
    let state = &mut state;
    for _ in 0..rounds {
        let octant = any_octant(1 + below(13, state) as u32, state);
        let (corner, width) = (below(8, state), 2 + below(3, state));
        let any =
            |state: &mut u64| [0, 1, 2].map(|h| from_corner(&octant, corner, h, true, below(width, state) as u32));
        let colours: Vec<Codes> = (0..2 + below(24, state)).map(|_| any(state)).collect();
        let tables = Tables::of(exact(&tagged(colours), any_of(&SIZES, state)));
        let moved = |state: &mut u64| {
            let (inside, channels, toward) =
                (any(state), 1 + below(7, state), any_of(&[corner, below(8, state)], state));
            let by = any_of(&[0, 1, 2, 5, 1_000, 4_095, 20_000], state);
            [0, 1, 2].map(|h| match channels >> h & 1 {
                0 => inside[h],
                _ => from_corner(&octant, toward, h, false, by),
            })
        };
        ask_around(ties, &tables, moved, state);
    }
}

#[test]
fn centres_outside_the_octant() {
    let mut ties = Ties::default();
    outside(&mut ties, 2_500, 7);
    ties.print(
        "centres outside the octant",
        Seen {
            none: 9_000,
            apart: 6_000,
            turned: 3_000,
            plane: 2_000,
            edge: 2_500,
            beyond: 6_000,
            together: 2_000,
            alike: 5_500,
            ..Seen::default()
        },
    );
}

/// Sets and centres within a few codes of three planes.
fn small_ranges(ties: &mut Ties, rounds: usize, mut state: u64) {
    let state = &mut state;
    for _ in 0..rounds {
        let (planes, width) = (any_planes(state), 4 + below(13, state));
        let any = |state: &mut u64| {
            planes.map(|plane| (plane + below(width, state) as u32).saturating_sub(width as u32 / 2).min(MOST_CODE))
        };
        let colours: Vec<Codes> = (0..2 + below(60, state)).map(|_| any(state)).collect();
        let tables = Tables::of(exact(&tagged(colours), any_of(&SIZES, state)));
        ask_around(ties, &tables, any, state);
    }
}

#[test]
fn small_ranges_around_planes() {
    let mut ties = Ties::default();
    small_ranges(&mut ties, 1_500, 8);
    ties.print(
        "small ranges around planes",
        Seen {
            none: 6_000,
            apart: 5_000,
            turned: 2_500,
            plane: 2_500,
            edge: 1_300,
            corner: 700,
            beyond: 10,
            together: 2_000,
            alike: 500,
        },
    );
}

// Many that are as far.

/// All the colours at three unlike distances, 48 if they are in range, in a sequence at random for each bucket size.
fn all_mirrored(ties: &mut Ties, rounds: usize, mut state: u64) {
    let state = &mut state;
    for _ in 0..rounds {
        let centre = if below(2, state) == 0 { any_planes(state) } else { scattered(1, random(state))[0] };
        let steps = shuffled(vec![0, 1, 2, 3, 4, 6, 9, 255, 256, 4_096, 9_000], state);
        let colours = mirrored(centre, [steps[0], steps[1], steps[2]]);
        for bucket in BUCKETS {
            let tables = Tables::of(exact(&tagged(shuffled(colours.clone(), state)), bucket));
            ties.ask(&tables, centre);
        }
    }
}

#[test]
fn many_as_far() {
    let mut ties = Ties::default();
    all_mirrored(&mut ties, 1_000, 9);
    ties.print(
        "many as far",
        Seen {
            none: 4_000,
            apart: 5_500,
            turned: 5_500,
            plane: 2_000,
            edge: 500,
            corner: 800,
            together: 5_000,
            ..Seen::default()
        },
    );
}

/// Ties between the first, the last and the middle rows of a full table, in one octant or in several; all else is
/// elsewhere.
fn rows_of_full_tables(ties: &mut Ties, rounds: usize, mut state: u64) {
    let state = &mut state;
    let (middle, end) = (MOST_SAMPLES / 2, MOST_SAMPLES);
    for _ in 0..rounds {
        let mut colours = scattered(MOST_SAMPLES, random(state));
        let centre = if below(2, state) == 0 { any_planes(state) } else { scattered(1, random(state))[0] };
        let rows = shuffled(vec![0, 1, middle / 2, middle - 1, middle, middle + 1, end - 2, end - 1], state);
        let equal = shuffled(mirrored(centre, [1, 2, 3]), state);
        let count = 2 + below(rows.len() - 1, state);
        rows.into_iter().zip(equal).take(count).for_each(|(row, codes)| colours[row] = codes);
        let tables = Tables::of(exact(&tagged(colours), any_of(&[16, MOST_BUCKET], state)));
        ties.ask(&tables, centre);
    }
}

#[test]
fn rows_far_apart() {
    let mut ties = Ties::default();
    rows_of_full_tables(&mut ties, 60, 10);
    ties.print(
        "rows far apart",
        Seen { none: 60, apart: 30, turned: 30, plane: 10, edge: 10, corner: 10, together: 90, ..Seen::default() },
    );
}

/// Equal colours, more than any bucket holds.
#[test]
fn equal_colours() {
    let mut compared = Compared::default();
    for codes in [[0; 3], [MOST_CODE; 3], [32_767, 32_768, 300]] {
        for tables in each([1, 2, 17, MOST_BUCKET as usize + 1, MOST_SAMPLES].map(|n| tagged(vec![codes; n])).to_vec())
        {
            for centre in beside(codes).into_iter().chain([[0; 3], [MOST_CODE; 3]]) {
                let answer = compared.query(&tables, &nearest(centre, MOST_RADIUS), &[]);
                let first = (true, 0, distance(codes, centre)); // tag 0 is that of the first
                assert_eq!((answer.found, answer.tag, answer.d2), first);
            }
        }
    }
    compared.print("equal colours");
}

// Long.

#[test]
#[ignore = "long: many ties"]
fn ties_long() {
    let mut ties = Ties::default();
    mirrors(&mut ties, 100_000, 1_003);
    lattices(&mut ties, 100_000, 1_004);
    for i in 0..16 * 16 {
        siblings(&mut ties, i % 16, [1, 2, 3, 16][i as usize / 64], 1_100 + i as u64);
    }
    corners(&mut ties, 20_000, 1_005);
    far_halves(&mut ties, 2_000, 1_006);
    outside(&mut ties, 60_000, 1_007);
    small_ranges(&mut ties, 40_000, 1_008);
    all_mirrored(&mut ties, 20_000, 1_009);
    rows_of_full_tables(&mut ties, 2_000, 1_010);
    ties.print(
        "ties, long",
        Seen {
            none: 2_300_000,
            apart: 1_750_000,
            turned: 1_000_000,
            plane: 580_000,
            edge: 320_000,
            corner: 220_000,
            beyond: 430_000,
            together: 600_000,
            alike: 950_000,
        },
    );
}
