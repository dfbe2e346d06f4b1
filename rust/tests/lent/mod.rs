//! What is lent to a call, between two guards, so that a call that reads on or writes elsewhere shows.

#![allow(dead_code)]

use crate::numbers::*;

/// What can be lent.
pub trait Lendable: Copy + PartialEq + 'static {
    /// What stands before it and after it.
    const GUARD: &'static [Self];
}

/// No guard word is 0, and none is a code or a row.
impl Lendable for u32 {
    const GUARD: &'static [u32] = &[0xA5A5_A5A5; 16];
}

/// A good line of a sheet, with tag 7, codes 1, 2, 3 and name G: reading on would find it.
impl Lendable for u8 {
    const GUARD: &'static [u8] = &{
        let mut line = [b' '; LINE_LENGTH];
        line[TAG_COLUMNS - 1] = b'7';
        line[code_start(1) - 1] = b'1';
        line[code_start(2) - 1] = b'2';
        line[code_start(3) - 1] = b'3';
        line[NAME_START] = b'G';
        line[LINE_LENGTH - 1] = b'\n';
        line
    };
}

pub struct Lent<T>(Vec<T>);

impl<T: Lendable> Lent<T> {
    pub fn new(lent: &[T]) -> Self {
        Lent([T::GUARD, lent, T::GUARD].concat())
    }

    pub fn within(&mut self) -> &mut [T] {
        let end = self.0.len() - T::GUARD.len();
        &mut self.0[T::GUARD.len()..end]
    }

    /// What was lent as left, where the guards are whole.
    pub fn left(&mut self) -> Option<&[T]> {
        let whole = self.0.starts_with(T::GUARD) && self.0.ends_with(T::GUARD);
        whole.then(|| &*self.within())
    }
}
