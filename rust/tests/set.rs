//! The set that owns its tables, compared with the straight scan: random sequences of all seven calls with more room
//! reserved between them, every answer with the whole listing, every word of both tables, and all else that the set
//! says of itself.
//!
//! `cargo test --release` takes some seconds. Each test prints how many calls it compared, by call and number, which
//! `--show-output` shows.

#[path = "../../oracle/straight_scan.rs"]
#[allow(dead_code)]
#[rustfmt::skip]
mod straight_scan;

mod asked;
mod calls;
mod compared;
mod days;
mod lent;
mod lines;
mod numbers;
mod random;
mod sets;

use calls::*;
use compared::query::{brief, found, listed};
use compared::{loaded, number_of, Compared, ALL_SEVEN};
use days::any_pick;
use hubeltxa::{Refusal, RefusedLoad, SampleSet};
use numbers::*;
use random::*;
use sets::*;
use straight_scan::{Answer, Bin, Call, Codes, Gesture, Sample};

/// The numbers that the wrapper publishes are those of the tests.
#[test]
fn published_numbers() {
    use hubeltxa::numbers as published;
    assert_eq!((published::MOST_CODE, published::SCALE), (MOST_CODE, SCALE as f32));
    assert_eq!((published::CHANNEL_LIMIT, published::RADIUS_LIMIT), (CHANNEL_LIMIT, RADIUS_LIMIT));
    assert_eq!((published::MOST_RADIUS, published::MOST_BUCKET), (MOST_RADIUS, MOST_BUCKET));
    assert_eq!((published::TITLE, published::COUNT_COLUMNS), (TITLE, COUNT_COLUMNS));
    assert_eq!((published::TAG_COLUMNS, published::CODE_COLUMNS), (TAG_COLUMNS, CODE_COLUMNS));
    assert_eq!((published::NAME_COLUMNS, published::NAME_START), (NAME_COLUMNS, NAME_START));
    assert_eq!((hubeltxa::HEADER_LENGTH, hubeltxa::LINE_LENGTH), (HEADER_LENGTH, LINE_LENGTH));
    assert_eq!((published::SAMPLE_HEADER, published::SAMPLE_ROW), (SAMPLE_HEADER, SAMPLE_ROW));
    assert_eq!((published::OCTANT_HEADER, published::OCTANT_ROW), (OCTANT_HEADER, OCTANT_ROW));
    assert_eq!((SampleSet::MOST_SAMPLES, SampleSet::OCTANTS_PER_SAMPLE), (MOST_SAMPLES, OCTANTS_A_SAMPLE));
    for rows in [0, 1, 2, 1_000, MOST_SAMPLES, MOST_OCTANTS] {
        assert_eq!(hubeltxa::lent::sample_words(rows), sample_words(rows));
        assert_eq!(hubeltxa::lent::octant_words(rows), octant_words(rows));
    }
}

/// A set, and what the straight scan has.
struct Compare {
    set: SampleSet,
    scanned: Bin,
}

impl Compare {
    fn new(rows: usize, octants: usize, bucket: u32) -> Self {
        let scanned = straight_scan::start(sample_words(rows), octant_words(octants), bucket).unwrap();
        let compare = Compare { set: SampleSet::new(rows, octants, bucket).unwrap(), scanned };
        compare.same("a new set");
        compare
    }

    /// The one comparison of a call.
    fn call(&mut self, compared: &mut Compared, call: &Call) -> Answer {
        let (answer, given) = match call {
            Call::Pick(query, lent) => {
                let mut long = lent.clone(); // the set lengthens it
                long.resize(lent.len().max(self.scanned.samples.len()), 0);
                (self.scanned.pick(query, &long), ask(&self.set, query, lent.clone(), long.len()))
            }
            _ => (self.scanned.call(call), change(&mut self.set, call)),
        };
        let what = format!("{call:?} on {:?}", self.set);
        assert!(given == answer, "the set's {}; the scan's {}: {what}", brief(&given), brief(&answer));
        self.same(&what);
        compared.count(call, true, answer.number);
        answer
    }

    /// More room in the set; the straight scan's tables are as long where that is more than there was, and can be used.
    fn reserve(&mut self, samples: usize, octants: usize) {
        let bin = &mut self.scanned;
        bin.sample_words = bin.sample_words.max(sample_words(samples.min(MOST_SAMPLES)));
        bin.octant_words = bin.octant_words.max(octant_words(octants.min(MOST_OCTANTS)));
        let what = format!("room for {samples} samples and {octants} octants in {:?}", self.set);
        self.set.reserve(samples, octants);
        self.same(&what);
    }

    /// Every word of both tables, and all that the set says of itself, is the straight scan's.
    fn same(&self, what: &str) {
        let (set, bin) = (&self.set, &self.scanned);
        let (samples, octants) = bin.tables();
        assert!(set.sample_words() == samples, "the sample table after {what}");
        assert!(set.octant_words() == octants, "the octant table after {what}");
        assert_eq!((set.len(), set.is_empty()), (bin.samples.len(), bin.samples.is_empty()), "{what}");
        assert_eq!((set.capacity(), set.octant_capacity()), (bin.sample_rows(), bin.octant_rows()), "{what}");
        assert_eq!((set.octant_count(), set.bucket()), (bin.octants(), bin.bucket), "{what}");
        assert!(set.samples().map(sample).eq(bin.samples.iter().copied()), "the samples after {what}");
        assert!(
            set.in_order().map(sample).eq(bin.walk().iter().map(|&row| bin.samples[row])),
            "the order after {what}"
        );
    }
}

fn sample(sample: hubeltxa::Sample) -> Sample {
    Sample { tag: sample.tag, codes: sample.codes }
}

/// A query, with a listing that must be left so long.
fn ask(set: &SampleSet, query: &Gesture, lent: Vec<Tag>, length: usize) -> Answer {
    match *query {
        Gesture::Ball { centre, radius } => listed(lent, |listing| set.ball(centre, radius, listing)),
        Gesture::Box { low, high } => listed(lent, |listing| set.box_(low, high, listing)),
        Gesture::Near { centre, radius } => {
            let mut listing = lent; // which nearest is not lent
            listing.resize(length, 0);
            found(listing, set.nearest(centre, radius))
        }
    }
}

fn change(set: &mut SampleSet, call: &Call) -> Answer {
    let (number, taken) = match call {
        Call::Clear(bucket) => (number_of(set.clear(*bucket)), 0),
        Call::Add(tag, codes) => (number_of(set.add(*tag, *codes)), 0),
        Call::Remove(tag) => (number_of(set.remove(*tag)), 0),
        Call::Load(sheet) => loaded(set.load(sheet)),
        Call::Pick(..) => unreachable!(),
    };
    Answer { number, taken, ..Answer::default() }
}

/// Rows and octant rows of each kind: that suffice, sample rows that run out, octant rows that run out, both of a set
/// just so, and one row or none.
fn any_rows(kind: usize, colours: &[Codes], bucket: u32, state: &mut u64) -> (usize, usize) {
    match kind {
        0 => (200, OCTANTS_A_SAMPLE * 200),
        1 => (1 + below(25, state), 500),
        2 => (100, 1 + below(40, state)),
        3 => {
            let samples = tagged((0..1 + below(60, state)).map(|_| any_of(colours, state)));
            (samples.len(), exact(&samples, bucket).octants())
        }
        _ => (below(2, state), below(2, state)),
    }
}

fn any(compare: &Compare, colours: &[Codes], growing: bool, state: &mut u64) -> Call {
    let set = &compare.scanned;
    match below(7, state) {
        0..=2 => any_pick(compare.set.sample_words(), set.samples.len(), state),
        _ => any_call(set, colours, 8, growing, state),
    }
}

/// As much room as there is, less, or a little more: of samples, and of octants.
fn any_room(set: &SampleSet, state: &mut u64) -> (usize, usize) {
    let mut near = |now: usize, more: usize| match below(4, state) {
        0 => below(now + 1, state),
        _ => now + below(more, state),
    };
    (near(set.capacity(), 4), near(set.octant_capacity(), 20))
}

/// Every call gave each of its numbers but 1, 2 and 13, which a set that owns its tables never gives. Some calls that
/// were refused by 6, and some by 7, are accepted again after more room was reserved.
#[test]
fn sequences_of_calls() {
    let (mut compared, mut helped, state) = (Compared::default(), [0; 14], &mut 1);
    for (kind, bucket) in (0..12 * 5).flat_map(|kind| SIZES.map(|bucket| (kind % 5, bucket))) {
        let colours = pool(300, state);
        let (rows, octants) = any_rows(kind, &colours, bucket, state);
        let mut compare = Compare::new(rows, octants, bucket);
        let mut growing = true;
        for _ in 0..200 {
            growing ^= below(40, state) == 0;
            let call = any(&compare, &colours, growing, state);
            let number = compare.call(&mut compared, &call).number;
            if below(if matches!(number, 6..=7) { 4 } else { 100 }, state) == 0 {
                let (samples, octants) = any_room(&compare.set, state);
                compare.reserve(samples, octants);
                let again = compare.call(&mut compared, &call).number;
                helped[number as usize] += usize::from(again == 0);
            }
        }
    }
    compared.print_all_seen_but(&[1, 2, 13], "sequences of calls", ALL_SEVEN);
    println!("accepted with more room: {} that were refused by 6, {} by 7", helped[6], helped[7]);
    assert!(helped[6] > 0 && helped[7] > 0);
}

/// No room is given up, none is made that no set can use, and the set is the one that would have had the room from the
/// first.
#[test]
fn room_reserved() {
    let samples = tagged(close_pairs(40, 8));
    let (rows, octants) = (samples.len(), exact(&samples, 1).octants());
    let loaded = |rows: usize, octants: usize| {
        let mut compare = Compare::new(rows, octants, 1);
        assert_eq!(compare.call(&mut Compared::default(), &Call::Load(sheet(&samples))).number, 0);
        compare
    };
    for more_samples in [0, rows - 1, rows, rows + 1, MOST_SAMPLES, MOST_SAMPLES + 1, usize::MAX] {
        for more_octants in [0, octants - 1, octants, octants + 20, MOST_OCTANTS, MOST_OCTANTS + 1, usize::MAX] {
            let mut compare = loaded(rows, octants);
            compare.reserve(more_samples, more_octants);
            let room = (more_samples.clamp(rows, MOST_SAMPLES), more_octants.clamp(octants, MOST_OCTANTS));
            assert_eq!((compare.set.capacity(), compare.set.octant_capacity()), room);
            assert_eq!(compare.set, loaded(room.0, room.1).set);
            let number = compare.call(&mut Compared::default(), &Call::Add(MOST_TAG, samples[0].codes)).number;
            assert_eq!(number, if room.0 == rows { 6 } else { 0 }); // a colour of the set needs no octant of its own
        }
    }
}

/// The rows that no set can use are not made, and a set for so many samples holds any.
#[test]
fn rows_for_any_samples() {
    let rows = |set: SampleSet| (set.capacity(), set.octant_capacity());
    for samples in [0, 1, MOST_SAMPLES - 1, MOST_SAMPLES] {
        assert_eq!(rows(SampleSet::for_samples(samples, 1).unwrap()), (samples, OCTANTS_A_SAMPLE * samples));
    }
    for many in [MOST_SAMPLES + 1, 100_000, usize::MAX / 16, usize::MAX] {
        assert_eq!(rows(SampleSet::for_samples(many, MOST_BUCKET).unwrap()), (MOST_SAMPLES, MOST_OCTANTS));
        assert_eq!(rows(SampleSet::new(many, many, MOST_BUCKET).unwrap()), (MOST_SAMPLES, many.min(MOST_OCTANTS)));
    }

    // Pairs of colours that part at the last depth take most octants.
    for samples in [2, 40, MOST_SAMPLES] {
        let colours = close_pairs(samples, 3).into_iter().enumerate();
        let samples: Vec<Sample> = colours.map(|(i, codes)| Sample { tag: i as Tag, codes }).collect();
        let mut set = SampleSet::for_samples(samples.len(), 1).unwrap();
        assert_eq!(set.load(&sheet(&samples)), Ok(samples.len() as u32));
        let (s, o) = (set.sample_words(), set.octant_words());
        let scanned = Bin { sample_words: s.len(), octant_words: o.len(), ..exact(&samples, 1) };
        assert!((s, o) == (&*scanned.tables().0, &*scanned.tables().1));
        assert_eq!(set.add(MOST_TAG, [0; 3]), Err(Refusal::NoRow));
    }
    let one_too_many = sheet(&tagged(scattered(MOST_SAMPLES + 1, 5)));
    let refused = RefusedLoad { refusal: Refusal::NoRow, taken: MOST_SAMPLES as u32 };
    let mut set = SampleSet::for_samples(MOST_SAMPLES + 1, 16).unwrap();
    assert_eq!(set.load(&one_too_many), Err(refused));
    set.reserve(usize::MAX, usize::MAX);
    assert_eq!(set.add(MOST_TAG, [0; 3]), Err(Refusal::NoRow));
}

#[test]
fn bucket_sizes_that_are_refused() {
    for bucket in [0, MOST_BUCKET + 1, u32::MAX] {
        assert_eq!(SampleSet::new(10, 10, bucket), Err(Refusal::Bucket));
        assert_eq!(SampleSet::for_samples(10, bucket), Err(Refusal::Bucket));
    }
}

/// Sets are equal by samples, their sequence, bucket size and rows, however they came to be so.
#[test]
fn equal_sets() {
    let of = |rows: usize, bucket: u32, tags: &[Tag]| {
        let mut set = SampleSet::for_samples(rows, bucket).unwrap();
        tags.iter().for_each(|&tag| set.add(tag, [tag as u32, 0, 0]).unwrap());
        set
    };
    let mut set = of(10, 1, &[9, 1, 2, 3]);
    set.remove(9).unwrap();
    assert_eq!(set, of(10, 1, &[1, 2, 3]));
    assert_eq!(set, set.clone());
    for other in [of(10, 1, &[1, 3, 2]), of(10, 1, &[1, 2]), of(10, 2, &[1, 2, 3]), of(11, 1, &[1, 2, 3])] {
        assert_ne!(set, other);
    }
}

/// Threads that ask one set at once are each answered as the straight scan answers, in a listing of their own.
#[test]
fn asked_by_several_threads() {
    let mut compare = Compare::new(MOST_SAMPLES, MOST_OCTANTS, 16);
    compare.call(&mut Compared::default(), &Call::Load(sheet(&tagged(scattered(1_000, 6)))));
    let (set, scanned) = (&compare.set, &compare.scanned);
    std::thread::scope(|threads| {
        for seed in 0..4 {
            threads.spawn(move || {
                let state = &mut (100 + seed);
                for _ in 0..500 {
                    let Call::Pick(query, lent) = any_pick(set.sample_words(), 1_000, state) else { unreachable!() };
                    let long = [lent.as_slice(), &vec![0; 1_000_usize.saturating_sub(lent.len())]].concat();
                    let length = long.len();
                    assert!(ask(set, &query, lent, length) == scanned.pick(&query, &long), "{query:?}");
                }
            });
        }
    });
}
