//! Colour samples in an octree: a safe wrapper over the proved static library `libhubeltxa.a`.
//!
//! A [`SampleSet`] owns its words, and is what most programs want. A colour is keyed like this:
//!
//! ```
//! use hubeltxa::{floats, name, Refusal, SampleSet};
//! use std::error::Error;
//!
//! fn main() -> Result<(), Box<dyn Error>> {
//!     // Samples of a green screen, and the reels that they were taken from.
//!     let sheet = b"SWATCHES     3\n\
//!                   \x20       11  9000 45000 12000 A001                            \n\
//!                   \x20       12  9400 45300 12100 A001                            \n\
//!                   \x20       13  8800 44100 12800 B002                            \n";
//!     let mut set = SampleSet::for_samples(512, 16)?; // bucket size 16
//!     assert_eq!(set.load(sheet)?, 3); // lines taken
//!     set.add(21, [52_000, 38_000, 31_000])?; // a face, which is not to be keyed
//!
//!     // Is a pixel of these codes the screen's green? Which samples say so?
//!     let pixel = floats([9_100, 44_900, 12_200])?;
//!     let mut listing = vec![]; // may be lent again to the next query
//!     let listed = set.ball(pixel, 0.02, &mut listing)?;
//!     assert_eq!(listed.tags, [11, 12, 13]);
//!
//!     // Which of them is nearest, and from which reel is it?
//!     if let Some(nearest) = set.nearest(pixel, 0.02)? {
//!         assert_eq!((nearest.tag, nearest.distance), (11, 60_000));
//!         assert_eq!(name(sheet, nearest.tag), b"A001");
//!     }
//!
//!     // A refusal says why, and changes nothing.
//!     match set.add(11, [0, 0, 0]) {
//!         Err(Refusal::KnownTag) => set.add(14, [0, 0, 0])?,
//!         other => other?,
//!     }
//!     if let Err(refused) = set.load(b"SWATCHES     1\n") {
//!         assert_eq!(refused.refusal.number(), 11);
//!         println!("{refused}"); // the sheet's header is not good, or the sheet not as long as it says
//!     }
//!     assert_eq!(set.len(), 5);
//!     Ok(())
//! }
//! ```
//!
//! A *code* is a whole number from 0 to [`MOST_CODE`](numbers::MOST_CODE), and a colour is red, green and blue codes. A
//! *panel colour* is three 32-bit floats, red, green and blue; [`codes`] and [`floats`] go from one to the other. A
//! *sample* is a tag, any 32-bit number, and a colour. A *sheet* is a text of samples, each with the name of the reel
//! that it was taken from.
//!
//! A *query* lists the tags of the samples in a ball or in a box, or finds the sample nearest to a colour.
//!
//! A call that is refused gives [`Refusal`], which says why; a refused load also says how many lines it
//! took: [`RefusedLoad`]. There is no state but a set's own, and calls may be made from any thread.
//!
//! The calls on tables that a program lends itself, as from C, are in [`lent`](mod@lent); the C functions in [`raw`].
//! What a sheet and the words of tables are is described in [`numbers`], which has all their numbers by name. To build
//! this crate, run `make lib` at the root of the repository first.
//!
//! # Tables
//!
//! A *set* of samples stands in two *tables* of 32-bit words, with no tag twice and a *bucket size* from 1 to
//! [`MOST_BUCKET`](numbers::MOST_BUCKET). The octant table is an octree of the colours: an octant is split exactly when
//! it holds more samples than the bucket size and its side is over 1. The *order* goes through the children of a split
//! octant, 0 to 7 (red bit + 2 * green bit + 4 * blue bit), and through the samples of another as they came in.
//!
//! Tables are *sound* when they are exactly those of some set. A [`SampleSet`]'s always are. A query of
//! [`lent`](mod@lent) does not ask; on tables that are not sound it is safe, and what it answers means nothing.

#![deny(missing_docs)]

mod answer;
mod colour;
pub mod lent;
pub mod numbers;
pub mod raw;
mod refusal;
mod set;
mod sheet;

pub use answer::{Listed, Nearest};
pub use colour::{codes, floats};
pub use numbers::{HEADER_LENGTH, LINE_LENGTH};
pub use refusal::{Refusal, RefusedLoad};
pub use set::{Sample, SampleSet};
pub use sheet::{name, write_line};

/// The page of Rust in README is run as a test.
#[cfg(doctest)]
#[doc = include_str!("../../README.md")]
struct Readme;
