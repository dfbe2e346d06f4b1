//! Nearest, asked where samples are as far from the centre as the one that is found, and how many such ties there were.

use crate::asked::*;
use crate::compared::{Compared, Tables};
use crate::numbers::*;
use crate::straight_scan::{distance, Bin, Codes, Sample};
use std::collections::BTreeSet;

/// An octant that can be split: its lowest corner, and the side of its children.
#[derive(Clone, Copy)]
pub struct Octant {
    pub low: Codes,
    pub half: u32,
}

impl Octant {
    /// The smallest one that holds all of these, of which two are unlike: they lie in two children of it, or in more.
    fn of(colours: &[Codes]) -> Self {
        let one = colours[0];
        let unlike = colours.iter().fold(0, |bits, codes| (0..3).fold(bits, |bits, h| bits | (one[h] ^ codes[h])));
        let half = 1 << unlike.ilog2();
        Octant { low: one.map(|code| code / (2 * half) * (2 * half)), half }
    }

    pub fn depth(&self) -> u32 {
        (CODE_COUNT as u32 / (2 * self.half)).ilog2()
    }

    pub fn holds(&self, codes: Codes) -> bool {
        (0..3).all(|h| (self.low[h]..self.low[h] + 2 * self.half).contains(&codes[h]))
    }

    /// The child that a colour lies in; of a colour outside, the one that is closest to it.
    pub fn child(&self, codes: Codes) -> usize {
        (0..3).map(|h| ((self.low[h] + self.half <= codes[h]) as usize) << h).sum()
    }

    /// The colour of a child that is closest to a centre.
    pub fn closest(&self, child: usize, centre: Codes) -> Codes {
        [0, 1, 2].map(|h| {
            let from = self.low[h] + self.half * (child >> h & 1) as u32;
            centre[h].clamp(from, from + self.half - 1)
        })
    }

    /// In which turn a search for what is close to a centre comes to the child of a colour: the closest child is turn
    /// 0, and another one is the turn that has the bits of the channels in which it differs.
    fn turn(&self, centre: Codes, codes: Codes) -> usize {
        self.child(codes) ^ self.child(centre)
    }

    /// In how many channels a centre is one of the two codes beside the plane between the children.
    fn planes(&self, centre: Codes) -> usize {
        let beside = |&h: &usize| [self.low[h] + self.half - 1, self.low[h] + self.half].contains(&centre[h]);
        (0..3).filter(beside).count()
    }
}

/// What is so of a tie.
#[derive(Clone, Copy, Debug, PartialEq, Eq, PartialOrd, Ord)]
pub enum Kind {
    /// The other sample came in before the one that is found, or after it.
    Before,
    After,
    /// A search comes to the other child first, and the sample that is found has the closest colour of its own: a search
    /// that left out a child which is exactly as far as what it has would lose it.
    Barely,
}

/// A tie between two children of an octant that is split.
#[derive(Clone, Copy, Debug, PartialEq, Eq, PartialOrd, Ord)]
pub struct Siblings {
    /// The depth of the octant.
    pub depth: u32,
    /// The child on the way down: the one that the centre is in, or that it is closest to if it is outside the octant.
    pub way: usize,
    pub outside: bool,
    /// The child of the sample that is found, and that of the other one.
    pub found: usize,
    pub other: usize,
    pub kind: Kind,
}

/// How many queries found none, and how many found one of several that are as far.
#[derive(Default)]
pub struct Seen {
    /// Nothing was within the radius.
    pub none: usize,
    /// One as far is in another octant.
    pub apart: usize,
    /// Of those apart, a search comes to that one before the one that is found, which is before it in the order.
    pub turned: usize,
    /// Of those apart, the centre is beside one of the planes between the children; and beside two, and all three.
    pub plane: usize,
    pub edge: usize,
    pub corner: usize,
    /// Of those apart, the centre is outside the smallest octant that holds the whole set.
    pub beyond: usize,
    /// One as far, of another colour, is in the same octant.
    pub together: usize,
    /// One as far has the same colour.
    pub alike: usize,
}

impl Seen {
    fn all(&self) -> [(&'static str, usize); 9] {
        let Seen { none, apart, turned, plane, edge, corner, beyond, together, alike } = *self;
        [
            ("none", none),
            ("apart", apart),
            ("turned", turned),
            ("plane", plane),
            ("edge", edge),
            ("corner", corner),
            ("beyond", beyond),
            ("together", together),
            ("alike", alike),
        ]
    }
}

/// Queries that were compared, and what was seen.
#[derive(Default)]
pub struct Ties {
    pub compared: Compared,
    seen: Seen,
    /// The ties between two children of an octant, since this was last cleared.
    pub met: BTreeSet<Siblings>,
    /// The children that the found sample and the other were in, and beside how many of the planes between the eight
    /// the centre was.
    pub beside: BTreeSet<(usize, usize, usize)>,
}

impl Ties {
    /// Nearest around a centre: with the greatest radius that holds none, the least that holds one, and the greatest.
    pub fn ask(&mut self, tables: &Tables, centre: Codes) {
        let set = tables.set.as_ref().unwrap();
        let Some(least) = set.samples.iter().map(|sample| distance(sample.codes, centre)).min() else { return };
        let equal: Vec<&Sample> = set.samples.iter().filter(|sample| distance(sample.codes, centre) == least).collect();
        let over = radii_at(least).into_iter().find(|&radius| radius as u64 * radius as u64 > least).unwrap();
        for radius in [over - 1, over, MOST_RADIUS] {
            let answer = self.compared.query(tables, &nearest(centre, radius), &[]);
            assert_eq!((answer.found, answer.d2), if radius < over { (false, 0) } else { (true, least) });
            match equal.iter().find(|sample| answer.found && sample.tag == answer.tag) {
                Some(found) => self.count(set, centre, found, &equal),
                None => self.seen.none += 1,
            }
        }
    }

    /// Counts the sample that was found, and what is as far.
    fn count(&mut self, set: &Bin, centre: Codes, found: &Sample, equal: &[&Sample]) {
        let [mut apart, mut turned, mut together] = [false; 3];
        let mut planes = [false; 4];
        for sample in equal.iter().filter(|sample| sample.codes != found.codes) {
            let octant = Octant::of(&[found.codes, sample.codes]);
            let within = set.samples.iter().filter(|sample| octant.holds(sample.codes)).count();
            let split = within > set.bucket as usize;
            together |= !split;
            apart |= split;
            turned |= split && octant.turn(centre, sample.codes) < octant.turn(centre, found.codes);
            planes[octant.planes(centre)] |= split;
            if split {
                self.keep_siblings(set, &octant, centre, [found, sample]);
            }
        }
        self.seen.apart += apart as usize;
        self.seen.turned += turned as usize;
        self.seen.plane += planes[1] as usize;
        self.seen.edge += planes[2] as usize;
        self.seen.corner += planes[3] as usize;
        self.seen.beyond += (apart && !around(set).holds(centre)) as usize;
        self.seen.together += together as usize;
        self.seen.alike += equal.iter().any(|sample| sample.codes == found.codes && sample.tag != found.tag) as usize;
    }

    /// Keeps that the sample that was found and another are as far, in two children of an octant.
    fn keep_siblings(&mut self, set: &Bin, octant: &Octant, centre: Codes, two: [&Sample; 2]) {
        let [found, other] = two.map(|sample| octant.child(sample.codes));
        let [turn, other_turn] = two.map(|sample| octant.turn(centre, sample.codes));
        let [row, other_row] = two.map(|sample| set.samples.iter().position(|one| one.tag == sample.tag));
        let kinds = [
            (Kind::Before, other_row < row),
            (Kind::After, row < other_row),
            (Kind::Barely, other_turn < turn && two[0].codes == octant.closest(found, centre)),
        ];
        let (depth, way, outside) = (octant.depth(), octant.child(centre), !octant.holds(centre));
        for (kind, _) in kinds.into_iter().filter(|(_, is_so)| *is_so) {
            self.met.insert(Siblings { depth, way, outside, found, other, kind });
        }
        self.beside.insert((found, other, octant.planes(centre)));
    }

    /// Prints how many calls were compared, and what was seen: at least so many of each.
    pub fn print(&self, what: &str, least: Seen) {
        self.compared.print(what);
        for ((name, seen), (_, least)) in self.seen.all().into_iter().zip(least.all()) {
            println!("  {name:<19}{seen:>9}");
            assert!(seen >= least, "{what}: {name} {seen} times, of at least {least}");
        }
    }
}

/// The smallest octant that holds a set of unlike colours.
fn around(set: &Bin) -> Octant {
    Octant::of(&set.samples.iter().map(|sample| sample.codes).collect::<Vec<_>>())
}
