//! Which rounds are wanted: the fixed share of the gate, as many as some seconds allow, or one alone.

use crate::random::random;
use std::fmt::Display;
use std::ops::RangeInclusive;
use std::str::FromStr;
use std::time::{Duration, SystemTime};

/// The seed and the rounds of the gate. As many rounds with any other seed should see every number too.
const FIXED_SEED: u64 = 1;
pub const FIXED_ROUNDS: u64 = 3_500;

#[derive(Clone, Copy)]
pub enum Rounds {
    Fixed,
    For(Duration),
    One(u64),
}

#[derive(Clone, Copy)]
pub struct Wanted {
    pub seed: u64,
    pub rounds: Rounds,
}

/// A number in the environment; none where the variable is not there, or empty.
fn number<T: FromStr<Err: Display>>(name: &str) -> Result<Option<T>, String> {
    let text = std::env::var_os(name).unwrap_or_default();
    if text.is_empty() {
        return Ok(None);
    }
    text.to_string_lossy().parse().map(Some).map_err(|why| format!("{name} is {text:?}: {why}"))
}

/// A seed that is another each time, and short.
fn new_seed() -> u64 {
    let now = SystemTime::now().duration_since(SystemTime::UNIX_EPOCH).unwrap();
    random(&mut (now.as_nanos() as u64)) % 1_000_000_000
}

impl Wanted {
    /// By FUZZ_SECONDS, FUZZ_SEED and FUZZ_ROUND, which `make fuzz` sets: a round alone, or some seconds, or the fixed
    /// share where neither is given. Only a run of some seconds without a seed is another each time. Otherwise says
    /// which of the three is no number.
    pub fn from_environment() -> Result<Self, String> {
        let rounds = match (number("FUZZ_ROUND")?, number("FUZZ_SECONDS")?) {
            (Some(round), _) => Rounds::One(round),
            (None, Some(seconds)) => Rounds::For(Duration::from_secs(seconds)),
            (None, None) => Rounds::Fixed,
        };
        let seed = number("FUZZ_SEED")?.unwrap_or_else(|| match rounds {
            Rounds::For(_) => new_seed(),
            _ => FIXED_SEED,
        });
        Ok(Wanted { seed, rounds })
    }

    /// The seed of a round by itself.
    pub fn seed_of(&self, round: u64) -> u64 {
        let mut state = self.seed;
        random(&mut (random(&mut state) ^ round))
    }

    /// The rounds to go through, where time does not end them.
    pub fn range(&self) -> RangeInclusive<u64> {
        match self.rounds {
            Rounds::Fixed => 0..=FIXED_ROUNDS - 1,
            Rounds::For(_) => 0..=u64::MAX,
            Rounds::One(round) => round..=round,
        }
    }

    /// What makes a round again.
    pub fn command(&self, round: u64) -> String {
        format!("make fuzz SEED={} ROUND={round}", self.seed)
    }
}
