//! Sessions at 2^61-1 bytes, and what no slice of Rust can be: lengths over that, and null pointers.

use std::ptr::{null, null_mut};

use super::model::{self, LARGEST, MAC, OPENING, SEALING};
use super::record::{Lent, Record};
use super::{step, Call, Start};
use crate::answers::*;
use crate::difference::{same, Difference, Equal};
use crate::guarded::pattern;
use crate::random::Random;
use wodzerim::aegis128l::raw::{self as ffi, Opened, Session};

/// A live record of this kind with this many message bytes behind it.
fn live(mark: usize, msg_len: u64) -> Record {
    let (_, start) = model::start(&Start { mark, key: &pattern(16), nonce: &pattern(16), ad: &[], tag_size: 16, room: 0 });
    let mut buf = [0; 32];
    let fill = (msg_len % 32) as usize;
    buf[..fill].copy_from_slice(&pattern(fill));
    Record { fill, msg_len, buf, ..start }
}

/// From each of the last 40 totals, pieces that just fit and pieces that don't; then the finish.
fn at_the_limit() -> Equal {
    let mut count = 0;
    for (mark, call) in [(SEALING, Call::SealPiece), (SEALING, Call::SealPieceInPlace), (MAC, Call::MacPiece)] {
        for left in 0..40 {
            let mut s = live(mark, LARGEST - left as u64);
            let text = |n: usize| if call == Call::SealPieceInPlace { vec![] } else { pattern(n) };
            let buf = |n: usize| if call == Call::MacPiece { vec![] } else { pattern(n) };
            for (n, expected) in [(left + 1, MESSAGE_TOO_LONG), (left, DONE), (0, DONE), (1, MESSAGE_TOO_LONG)] {
                let (answer, _) = step(call, &mut s, &text(n), &mut buf(n))?;
                same("piece at the limit", &format!("{call:?} with {left} left, piece of {n}"), expected, answer)?;
                count += 1;
            }
            let finish = if mark == MAC { Call::MacFinish } else { Call::SealFinish };
            step(finish, &mut s, &[], &mut pattern(16))?;
            count += 1;
        }
    }
    Ok(count)
}

/// Cases of one kind, counted as they are compared.
struct Cases {
    kind: &'static str,
    count: u64,
}

impl Cases {
    /// One call on a record that holds `before`: its answer, and all bytes of the record after it.
    fn check<T: PartialEq + std::fmt::Debug>(
        &mut self,
        what: &str,
        before: [u8; 216],
        call: impl FnOnce(*mut Session) -> T,
        answer: T,
        after: Record,
    ) -> Result<(), Difference> {
        let mut lent = Lent::new(before);
        same(self.kind, &what, answer, call(lent.session()))?;
        same(self.kind, &format!("{what}: the record after it"), after.bytes().to_vec(), lent.seen())?;
        self.count += 1;
        Ok(())
    }

    /// A call that leaves the record as it was.
    fn stays(&mut self, what: &str, s: Record, call: impl FnOnce(*mut Session) -> u8, answer: u8) -> Result<(), Difference> {
        self.check(what, s.bytes(), call, answer, s)
    }
}

/// Lengths that no memory has. The calls refuse them, so no pointer is followed.
fn too_long() -> Equal {
    const OVER: usize = 1 << 61;
    let (key, nonce, input, mut out) = (pattern(16), pattern(16), pattern(8), pattern(8));
    let (k, n, i, o) = (key.as_ptr(), nonce.as_ptr(), input.as_ptr(), out.as_mut_ptr());
    let mut cases = Cases { kind: "a length of 2^61", count: 0 };
    let mut random = Random::new(19);
    // SAFETY: each call is refused for a length before it looks at a byte of that slice.
    unsafe {
        for (tag_size, answer) in [(16, AD_TOO_LONG), (32, AD_TOO_LONG), (17, WRONG_TAG_SIZE)] {
            let sealing = |s| ffi::aegis128l_seal_start(s, k, 16, n, 16, i, OVER, tag_size);
            let opening = |s| ffi::aegis128l_open_start(s, k, 16, n, 16, i, OVER, tag_size, 8);
            cases.check("sealing start, AD", random.array(), sealing, answer, model::over())?;
            cases.check("opening start, AD", random.array(), opening, answer, model::over())?;
        }

        let sealing = live(SEALING, 5);
        cases.stays("sealing piece", sealing, |s| ffi::aegis128l_seal_piece(s, i, OVER, o, OVER), MESSAGE_TOO_LONG)?;
        cases.stays("sealing piece, one buffer", sealing, |s| ffi::aegis128l_seal_piece(s, i, OVER, o, 8), LENGTHS_DIFFER)?;
        cases.stays("sealing piece in place", sealing, |s| ffi::aegis128l_seal_piece_in_place(s, o, OVER), MESSAGE_TOO_LONG)?;
        cases.stays("sealing piece, opener", live(OPENING, 0), |s| ffi::aegis128l_seal_piece(s, i, OVER, o, OVER), NOT_LIVE)?;
        cases.stays("MAC piece", live(MAC, 5), |s| ffi::aegis128l_mac_piece(s, i, OVER), MESSAGE_TOO_LONG)?;

        // Opening: room is looked at before the total.
        let full = Record { room: OVER + 9, written: LARGEST as usize, ..live(OPENING, LARGEST) };
        for (len, answer) in [(0, DONE), (1, MESSAGE_TOO_LONG), (10, MESSAGE_TOO_LONG), (11, NO_ROOM)] {
            cases.stays("opening piece", full, |s| ffi::aegis128l_open_piece(s, i, len, o, OVER + 9), answer)?;
        }
        cases.stays("opening piece, other buffer", full, |s| ffi::aegis128l_open_piece(s, i, 1, o, 8), OTHER_BUFFER)?;
        cases.stays("opening finish, other buffer", full, |s| ffi::aegis128l_open_finish(s, i, 16, o, 8).answer, OTHER_BUFFER)?;
        cases.stays("abort, other buffer", full, |s| ffi::aegis128l_abort(s, o, 8), OTHER_BUFFER)?;
    }
    same("too long", &"the lent output", pattern(8), out)?;
    Ok(cases.count)
}

/// Every slice empty and null.
fn null_pointers() -> Equal {
    let (key, nonce) = (pattern(16), pattern(16));
    let (k, n) = (key.as_ptr(), nonce.as_ptr());
    let (i, o) = (null(), null_mut());
    let mut cases = Cases { kind: "null pointers of length 0", count: 0 };
    let mut random = Random::new(20);
    let started = |mark| live(mark, 0);
    // SAFETY: a null pointer has the length 0.
    unsafe {
        let sealing = |s| ffi::aegis128l_seal_start(s, k, 16, n, 16, i, 0, 16);
        let opening = |s| ffi::aegis128l_open_start(s, k, 16, n, 16, i, 0, 16, 0);
        cases.check("sealing start, AD", random.array(), sealing, DONE, started(SEALING))?;
        cases.check("opening start, AD", random.array(), opening, DONE, started(OPENING))?;
        let no_key = |s| ffi::aegis128l_seal_start(s, i, 0, n, 16, i, 0, 16);
        let no_nonce = |s| ffi::aegis128l_mac_start(s, k, 16, i, 0, 16);
        cases.check("sealing start, key", random.array(), no_key, WRONG_KEY_SIZE, model::over())?;
        cases.check("MAC start, nonce", random.array(), no_nonce, WRONG_NONCE_SIZE, model::over())?;

        for len in [0, 5, 32] {
            let (sealing, mac) = (live(SEALING, len), live(MAC, len));
            cases.stays("sealing piece", sealing, |s| ffi::aegis128l_seal_piece(s, i, 0, o, 0), DONE)?;
            cases.stays("sealing piece in place", sealing, |s| ffi::aegis128l_seal_piece_in_place(s, o, 0), DONE)?;
            cases.stays("sealing finish", sealing, |s| ffi::aegis128l_seal_finish(s, o, 0), WRONG_TAG_SIZE)?;
            cases.stays("MAC piece", mac, |s| ffi::aegis128l_mac_piece(s, i, 0), DONE)?;
            cases.stays("MAC finish", mac, |s| ffi::aegis128l_mac_finish(s, o, 0), WRONG_TAG_SIZE)?;
            cases.stays("MAC check", mac, |s| ffi::aegis128l_mac_finish_check(s, i, 0), WRONG_TAG_SIZE)?;
        }
        let opening = live(OPENING, 0);
        cases.stays("opening piece", opening, |s| ffi::aegis128l_open_piece(s, i, 0, o, 0), DONE)?;
        cases.stays("opening finish", opening, |s| ffi::aegis128l_open_finish(s, i, 0, o, 0).answer, WRONG_TAG_SIZE)?;

        let tag = model::tag(&opening);
        let finish = |s| ffi::aegis128l_open_finish(s, tag.as_ptr(), 16, o, 0);
        cases.check("opening finish of nothing", opening.bytes(), finish, Opened { answer: DONE, count: 0 }, model::over())?;
        for mark in [SEALING, OPENING, MAC] {
            cases.check("abort", live(mark, 0).bytes(), |s| ffi::aegis128l_abort(s, o, 0), DONE, model::over())?;
        }
    }
    Ok(cases.count)
}

pub fn run(say: &mut dyn FnMut(&str, u64)) -> Result<(), Difference> {
    say("pieces and finishes at a total of 2^61-1", at_the_limit()?);
    say("sessions, lengths over 2^61-1", too_long()?);
    say("sessions, null pointers of length 0", null_pointers()?);
    Ok(())
}
