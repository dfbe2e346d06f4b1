//! Limits that calls are held to: a time, and a stack.

#![allow(dead_code)]

use std::hint::black_box;
use std::sync::mpsc::{channel, RecvTimeoutError};
use std::time::Duration;

/// Runs a test in which every call must end at once. It fails where the whole takes longer, also where a call does
/// not end at all.
pub fn in_time(seconds: u64, run: impl FnOnce() + Send + 'static) {
    let (done, ended) = channel();
    let thread = std::thread::spawn(move || {
        run();
        done.send(()).unwrap();
    });
    if ended.recv_timeout(Duration::from_secs(seconds)) == Err(RecvTimeoutError::Timeout) {
        panic!("not ended within {seconds} seconds");
    }
    thread.join().unwrap_or_else(|panic| std::panic::resume_unwind(panic));
}

/// Runs with so many bytes of the stack in use.
#[inline(never)]
fn holding<const BYTES: usize>(run: impl FnOnce()) {
    let held = [1_u8; BYTES];
    black_box(&held);
    run();
    black_box(&held);
}

/// Runs in a thread that has a few hundred bytes more than the 8,000 that the header says of a query: one that took more
/// would end the test. A thread can't have less than 16,384, so part of its stack is held.
pub fn in_stack_of_a_query(run: impl FnOnce() + Send + 'static) {
    const STACK: usize = 8_000;
    const HELD: usize = 11_500;
    let thread = std::thread::Builder::new().stack_size(STACK + 16_384);
    thread.spawn(|| holding::<HELD>(run)).unwrap().join().unwrap();
}
