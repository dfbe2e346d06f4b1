//! Rounds in a thread of their own, and one that watches them: it says how far they are, and whether one does not end.

use super::day::Day;
use super::seen::Seen;
use super::step::Step;
use super::wanted::{Rounds, Wanted};
use crate::compared::Tables;
use std::io::{stdout, IsTerminal, Write};
use std::panic::{catch_unwind, AssertUnwindSafe};
use std::sync::atomic::{AtomicU64, Ordering::Relaxed};
use std::sync::mpsc::{channel, Receiver, RecvTimeoutError};
use std::sync::{Arc, Mutex};
use std::time::{Duration, Instant};

/// No round should take nearly as long: all of the gate's together take some seconds.
const LONGEST_ROUND: Duration = Duration::from_secs(120);

/// Where the rounds are.
#[derive(Default)]
struct Now {
    round: AtomicU64,
    calls: AtomicU64,
    call: Mutex<Option<(Tables, Step)>>,
}

impl Now {
    fn note(&self, tables: &Tables, step: &Step) {
        self.calls.fetch_add(1, Relaxed);
        *self.call.lock().unwrap() = Some((tables.clone(), step.clone()));
    }
}

/// All rounds that passed, and what they saw.
pub struct Passed {
    pub rounds: u64,
    pub seen: Seen,
}

/// Goes through the rounds until one fails.
fn rounds(wanted: Wanted, start: Instant, now: &Now) -> Result<Passed, ()> {
    let (mut seen, mut rounds) = (Seen::default(), 0);
    for round in wanted.range() {
        if matches!(wanted.rounds, Rounds::For(time) if start.elapsed() >= time) {
            break;
        }
        now.round.store(round, Relaxed);
        let day = || Day::new(wanted.seed_of(round)).run(&mut seen, |tables, step| now.note(tables, step));
        catch_unwind(AssertUnwindSafe(day)).map_err(|_| ())?;
        rounds += 1;
    }
    Ok(Passed { rounds, seen })
}

/// So many rounds, in words.
fn counted(rounds: u64) -> String {
    format!("{rounds} round{}", if rounds == 1 { "" } else { "s" })
}

/// How far the rounds are.
fn progress(wanted: Wanted, start: Instant, now: &Now) -> String {
    let (round, calls, time) = (now.round.load(Relaxed), now.calls.load(Relaxed), start.elapsed());
    let left = match wanted.rounds {
        Rounds::For(whole) => format!("{} s left", whole.saturating_sub(time).as_secs()),
        _ => format!("{} left", counted((wanted.range().end() - round).saturating_add(1))),
    };
    format!("round {round}, {calls} calls, {:.0} calls a second, {left}", calls as f64 / time.as_secs_f64())
}

/// Waits for the rounds, and says how far they are: in one line that is written again each second on a terminal, in a
/// line every ten seconds elsewhere. Fails where a round does not end.
fn watch(wanted: Wanted, start: Instant, now: &Now, ended: Receiver<Result<Passed, ()>>) -> Result<Passed, ()> {
    let terminal = stdout().is_terminal();
    let pause = Duration::from_secs(if terminal { 1 } else { 10 });
    let (mut round, mut since) = (u64::MAX, start);
    loop {
        match ended.recv_timeout(pause) {
            Ok(result) => return result,
            Err(RecvTimeoutError::Disconnected) => return Err(()),
            Err(RecvTimeoutError::Timeout) => {}
        }
        match terminal {
            true => print!("\r\x1B[K{}", progress(wanted, start, now)),
            false => println!("{}", progress(wanted, start, now)),
        }
        stdout().flush().unwrap();
        if round != now.round.load(Relaxed) {
            (round, since) = (now.round.load(Relaxed), Instant::now());
        } else if since.elapsed() > LONGEST_ROUND {
            println!("\nnot ended within {} seconds", LONGEST_ROUND.as_secs());
            return Err(());
        }
    }
}

/// What failed, in full, and how to have it again. The thread that failed has said how.
fn show_failure(wanted: Wanted, now: &Now) {
    let round = now.round.load(Relaxed);
    if let Some((tables, step)) = now.call.lock().unwrap().as_ref() {
        println!("\nthe last call that was made: {}", step.in_full(tables));
    }
    println!("\nround {round} of seed {} failed; its own seed is {}", wanted.seed, wanted.seed_of(round));
    println!("that round alone: {}", wanted.command(round));
}

/// Goes through the rounds; nothing where one failed, or where no call was made.
pub fn run(wanted: Wanted) -> Option<Passed> {
    let (now, start, (end, ended)) = (Arc::new(Now::default()), Instant::now(), channel());
    let theirs = Arc::clone(&now);
    std::thread::spawn(move || _ = end.send(rounds(wanted, start, &theirs)));
    let result = watch(wanted, start, &now, ended);
    if stdout().is_terminal() {
        println!();
    }
    match result {
        Ok(passed) => {
            let (calls, time) = (now.calls.load(Relaxed), start.elapsed().as_secs_f64());
            let difference = if calls == 0 { "which is a failure: nothing was compared" } else { "no difference" };
            println!("{}, {calls} calls in {time:.1} s, {difference}", counted(passed.rounds));
            (calls > 0).then_some(passed)
        }
        Err(()) => {
            show_failure(wanted, &now);
            None
        }
    }
}
