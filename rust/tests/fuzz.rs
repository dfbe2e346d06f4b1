//! Random days of all twelve calls, with damage between them and damaged inputs, compared with the straight scan for as
//! long as asked: `make fuzz SECONDS=600`, and `make fuzz SECONDS=600 SEED=7` for the same rounds again.
//!
//! A round is one day on one pair of tables, which hold any words at first, or those of a set. Every answer, every
//! word of both tables and of each listing, and what stands beside all that is lent are compared after each call. The
//! straight scan says whether damaged tables are sound; where not, what is promised of such tables is asked. Calls that
//! change tables, and queries, go through C and through the wrapper, the others through C.
//!
//! The seed is printed first. A round depends on the seed and on its own number alone: one that fails prints the call
//! in full, and a command that runs that round by itself. (Where the process itself is ended by a call, the same seed
//! leads there again.) At the end stands a table of the calls and of the numbers that they gave.
//!
//! `cargo test` goes through a fixed share. It fails where a number was not seen of a call that can give it, and so
//! does a run of some seconds that went through as many rounds. A run that made no call fails.

#[path = "../../oracle/straight_scan.rs"]
#[allow(dead_code)]
#[rustfmt::skip]
mod straight_scan;

mod asked;
mod calls;
mod compared;
mod damage;
mod days;
mod lent;
mod lines;
mod numbers;
mod plain;
mod random;
mod sets;

mod fuzz {
    pub mod day;
    pub mod harm;
    pub mod inputs;
    pub mod run;
    pub mod seen;
    pub mod step;
    pub mod wanted;
}

use fuzz::run::{run, Passed};
use fuzz::wanted::{Wanted, FIXED_ROUNDS};
use std::process::ExitCode;

/// Whether every number was seen, or the rounds were too few to ask.
fn all_seen(passed: &Passed) -> bool {
    println!("{}", passed.seen.table());
    println!("A check and a name give no number: they are counted under 0, by what they say.");
    let not_seen = passed.seen.not_seen();
    if not_seen.is_empty() {
        println!("Every number was seen of each call that can give it.");
        return true;
    }
    println!("Not seen: {}.", not_seen.join("; "));
    let enough = passed.rounds >= FIXED_ROUNDS;
    if !enough {
        println!("That is no failure: {FIXED_ROUNDS} rounds are enough to ask, fewer are not.");
    }
    !enough
}

fn main() -> ExitCode {
    // What `cargo test` passes on to every test program: the long tests alone, or a list of tests.
    if std::env::args().any(|argument| argument == "--ignored" || argument == "--list") {
        return ExitCode::SUCCESS;
    }
    let wanted = match Wanted::from_environment() {
        Ok(wanted) => wanted,
        Err(why) => {
            eprintln!("{why}");
            return ExitCode::FAILURE;
        }
    };
    println!("seed {}", wanted.seed);
    match run(wanted) {
        Some(passed) if all_seen(&passed) => ExitCode::SUCCESS,
        _ => ExitCode::FAILURE,
    }
}
