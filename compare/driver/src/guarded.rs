//! Buffers lent out of the middle of larger ones, so that a write outside of them is seen, and one to what is only read.

use crate::difference::{same, Difference};

const GUARD: usize = 40;

pub struct Guarded {
    whole: Vec<u8>,
    end: usize,
}

/// A byte that depends on its place.
fn mark(i: usize) -> u8 {
    (i as u8).wrapping_mul(31) ^ 0x5c
}

/// What stands in an output buffer before a call.
pub fn pattern(len: usize) -> Vec<u8> {
    (0..len).map(mark).collect()
}

impl Guarded {
    pub fn new(content: &[u8]) -> Guarded {
        let guard = pattern(GUARD);
        Guarded { whole: [&guard, content, &guard].concat(), end: GUARD + content.len() }
    }

    pub fn lent(&mut self) -> &mut [u8] {
        &mut self.whole[GUARD..self.end]
    }

    /// The content, or the whole with its guards if a guard was written.
    pub fn seen(&self) -> &[u8] {
        let intact = |guard: &[u8]| guard.iter().enumerate().all(|(i, b)| *b == mark(i));
        if intact(&self.whole[..GUARD]) && intact(&self.whole[self.end..]) {
            &self.whole[GUARD..self.end]
        } else {
            &self.whole
        }
    }
}

/// A copy of what a call may only read.
pub struct ReadOnly<'a> {
    what: &'static str,
    bytes: &'a [u8],
    copy: Guarded,
}

impl<'a> ReadOnly<'a> {
    pub fn new(what: &'static str, bytes: &'a [u8]) -> ReadOnly<'a> {
        ReadOnly { what, bytes, copy: Guarded::new(bytes) }
    }

    pub fn lent(&mut self) -> &[u8] {
        self.copy.lent()
    }

    /// A difference if this function wrote to it, or around it.
    pub fn intact(&self, by: &str) -> Result<(), Difference> {
        same("a call wrote to what it may only read, or around it", &format!("{by}, {}", self.what), self.bytes, self.copy.seen())
    }
}
