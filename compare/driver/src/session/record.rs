//! A session's record as the model has it, and all of its bytes as C has it.

use std::fmt;
use std::mem::{align_of, offset_of, size_of};

use crate::difference::hex;
use wodzerim::aegis128l::raw::Session;

pub const SIZE: usize = 216;

/// The fields of document 01's record, in the order in which they stand there.
#[derive(Clone, Copy, Debug, PartialEq, Eq)]
pub struct Record {
    pub blocks: [[u8; 16]; 8],
    pub buf: [u8; 32],
    pub fill: usize,
    pub ad_len: u64,
    pub msg_len: u64,
    pub tag_size: usize,
    pub mark: usize,
    pub room: usize,
    pub written: usize,
}

// The archive's record has these fields at these places, and no byte between them.
const _: () = {
    assert!(offset_of!(Session, blocks) == 0);
    assert!(offset_of!(Session, buf) == 128);
    assert!(offset_of!(Session, fill) == 160);
    assert!(offset_of!(Session, ad_len) == 168);
    assert!(offset_of!(Session, msg_len) == 176);
    assert!(offset_of!(Session, tag_size) == 184);
    assert!(offset_of!(Session, mark) == 192);
    assert!(offset_of!(Session, room) == 200);
    assert!(offset_of!(Session, written) == 208);
    assert!(size_of::<Session>() == SIZE && align_of::<Session>() == align_of::<u64>());
};

impl Record {
    /// Its bytes in memory: blocks, buffer, then the seven numbers of eight bytes each.
    pub fn bytes(&self) -> [u8; SIZE] {
        let Record { blocks, buf, fill, ad_len, msg_len, tag_size, mark, room, written } = *self;
        let numbers = [fill as u64, ad_len, msg_len, tag_size as u64, mark as u64, room as u64, written as u64];
        let numbers = numbers.map(u64::to_ne_bytes);
        [blocks.as_flattened(), &buf, numbers.as_flattened()].concat().try_into().expect("216 bytes")
    }

    pub fn of(bytes: &[u8; SIZE]) -> Record {
        let number = |at: usize| u64::from_ne_bytes(bytes[at..at + 8].try_into().expect("8 bytes"));
        Record {
            blocks: std::array::from_fn(|i| bytes[16 * i..16 * i + 16].try_into().expect("16 bytes")),
            buf: bytes[128..160].try_into().expect("32 bytes"),
            fill: number(160) as usize,
            ad_len: number(168),
            msg_len: number(176),
            tag_size: number(184) as usize,
            mark: number(192) as usize,
            room: number(200) as usize,
            written: number(208) as usize,
        }
    }
}

impl fmt::Display for Record {
    fn fmt(&self, f: &mut fmt::Formatter<'_>) -> fmt::Result {
        let Record { blocks, buf, fill, ad_len, msg_len, tag_size, mark, room, written } = self;
        writeln!(f, "  blocks {}", blocks.map(|b| hex(&b)).join(" "))?;
        writeln!(f, "  buffer {}", hex(buf))?;
        write!(f, "  fill {fill} ad_len {ad_len} msg_len {msg_len} tag_size {tag_size} mark {mark} room {room} written {written}")
    }
}

/// A record lent out of the middle of a larger memory, so that a write outside of it is seen.
#[repr(C)]
pub struct Lent {
    before: [u64; 5],
    session: [u8; SIZE],
    after: [u64; 5],
}

const GUARD: [u64; 5] = [0x5c3d_1e7f_a0b1_c2d3; 5];

impl Lent {
    pub fn new(bytes: [u8; SIZE]) -> Lent {
        Lent { before: GUARD, session: bytes, after: GUARD }
    }

    pub fn session(&mut self) -> &mut Session {
        // SAFETY: these bytes are as many as the record's, they stand behind whole `u64`s and so where a record may stand, and any
        // bytes are a record.
        unsafe { &mut *self.session.as_mut_ptr().cast() }
    }

    /// The record's bytes, or with its guards if one was written.
    pub fn seen(&self) -> Vec<u8> {
        if (self.before, self.after) == (GUARD, GUARD) {
            return self.session.to_vec();
        }
        let guard = |words: [u64; 5]| words.map(u64::to_ne_bytes).as_flattened().to_vec();
        [guard(self.before), self.session.to_vec(), guard(self.after)].concat()
    }
}
