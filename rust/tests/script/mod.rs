//! Scripts of calls, as the driver `hbx_replay` reads them, and its answers. The numbers of the format stand here alone.

use crate::random::*;
use crate::straight_scan::{Answer, Call, Gesture};

/// The words, and the floats, of a step; the words of an answer.
pub const STEP: usize = 10;
pub const ANSWER: usize = 12;

/// What stands where among the words of a step.
const KIND: usize = 0;
const BUCKET: usize = 1;
const TAG: usize = 1;
const CODES: usize = 3;
const SHEET_START: usize = 1;
const SHEET_LENGTH: usize = 2;
const LENT: usize = 9;

/// The same among its floats.
const LOW: usize = 0;
const HIGH: usize = 3;
const RADIUS: usize = 3;

/// The kinds of calls; a nearest query is any other.
const CLEAR: u32 = 0;
const LOAD: u32 = 1;
const ADD: u32 = 2;
const REMOVE: u32 = 3;
const BALL: u32 = 4;
const BOX: u32 = 5;
const OTHERS: [u32; 3] = [6, 7, u32::MAX];

/// What the driver is lent for a list of calls.
#[derive(Default)]
pub struct Script {
    pub words: Vec<u32>,
    pub floats: Vec<f32>,
    pub sheets: Vec<u8>,
    pub listings: Vec<u32>,
}

impl Script {
    /// A script of these calls. The words and floats that a call does not use may be any.
    pub fn of<'a>(calls: impl IntoIterator<Item = &'a Call>, state: &mut u64) -> Self {
        let mut script = Script::default();
        calls.into_iter().for_each(|call| script.push(call, state));
        script
    }

    fn push(&mut self, call: &Call, state: &mut u64) {
        let mut words = [0; STEP].map(|_| random(state) as u32);
        let mut floats = [f32::NAN; STEP];
        match call {
            Call::Clear(bucket) => (words[KIND], words[BUCKET]) = (CLEAR, *bucket),
            Call::Load(sheet) => {
                (words[KIND], words[SHEET_START]) = (LOAD, self.sheets.len() as u32);
                words[SHEET_LENGTH] = sheet.len() as u32;
                self.sheets.extend(sheet);
            }
            Call::Add(tag, codes) => {
                (words[KIND], words[TAG]) = (ADD, *tag);
                words[CODES..CODES + 3].copy_from_slice(codes);
            }
            Call::Remove(tag) => (words[KIND], words[TAG]) = (REMOVE, *tag),
            Call::Pick(gesture, lent) => {
                words[LENT] = lent.len() as u32;
                self.listings.extend(lent);
                words[KIND] = query(gesture, &mut floats, state);
            }
        }
        self.words.extend(words);
        self.floats.extend(floats);
    }
}

/// Writes the floats of a query, and gives its kind.
fn query(gesture: &Gesture, floats: &mut [f32], state: &mut u64) -> u32 {
    let mut put = |at: usize, colour: &[f32; 3]| floats[at..at + 3].copy_from_slice(colour);
    match gesture {
        Gesture::Box { low, high } => {
            put(LOW, low);
            put(HIGH, high);
            BOX
        }
        Gesture::Ball { centre, radius } => {
            put(LOW, centre);
            floats[RADIUS] = *radius;
            BALL
        }
        Gesture::Near { centre, radius } => {
            put(LOW, centre);
            floats[RADIUS] = *radius;
            any_of(&OTHERS, state)
        }
    }
}

/// An answer from its words, the spare ones of which are 0, and the listing as left.
pub fn answer_of(words: &[u32], listing: &[u32]) -> Answer {
    let &[number, taken, listed, entered, measured, found, tag, tag_high, low, high, 0, 0] = words else {
        panic!("no answer: {words:?}")
    };
    assert!(found <= 1 && tag_high == 0, "found is {found}, the tag's upper half {tag_high}");
    let d2 = u64::from(low) | u64::from(high) << 32;
    Answer { number, taken, listed, entered, measured, found: found == 1, tag, d2, listing: listing.to_vec() }
}
