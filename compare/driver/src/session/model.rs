//! Document 01's sessions, word for word and byte by byte, over the draft's program: what every call must answer and
//! leave, on any bytes in the record. Written from the document, not from the Rust and not from the Rattle code.

use super::record::Record;
use super::{Call, Start};
use crate::answers::*;
use draft::State;

pub const SEALING: usize = 0;
pub const OPENING: usize = 1;
pub const MAC: usize = 2;
pub const OVER: usize = 3;
pub const LARGEST: u64 = (1 << 61) - 1;

/// "A session that we end or refuse to start holds only zeros and the mark over."
pub fn over() -> Record {
    blank(OVER, 0)
}

fn blank(mark: usize, tag_size: usize) -> Record {
    Record { blocks: [[0; 16]; 8], buf: [0; 32], fill: 0, ad_len: 0, msg_len: 0, tag_size, mark, room: 0, written: 0 }
}

/// "Session start: 1, 2, 3, 4"; "MAC start: 1, 2, 3". Fields that a kind does not use start as zero.
pub fn start(start: &Start) -> (u8, Record) {
    let Start { mark, key, nonce, ad, tag_size, room } = *start;
    let refused = |answer| (answer, over());
    if tag_size != 16 && tag_size != 32 {
        return refused(WRONG_TAG_SIZE);
    }
    let Ok(key) = key.try_into() else { return refused(WRONG_KEY_SIZE) };
    let Ok(nonce) = nonce.try_into() else { return refused(WRONG_NONCE_SIZE) };
    let mut state = State::init(key, nonce);
    draft::padded(ad).iter().for_each(|block| state.absorb(block));
    (DONE, Record { blocks: state.0, ad_len: ad.len() as u64, room, ..blank(mark, tag_size) })
}

/// "Well formed means: tag size 16 or 32, both lengths at most 2^61-1, fill equal to the message length modulo 32, and
/// for opening the count written equal to the message length and at most the room."
fn well_formed(s: &Record) -> bool {
    (s.tag_size == 16 || s.tag_size == 32)
        && s.ad_len <= LARGEST
        && s.msg_len <= LARGEST
        && s.fill as u64 == s.msg_len % 32
        && (s.mark != OPENING || (s.written as u64 == s.msg_len && s.written <= s.room))
}

fn live(s: &Record, mark: usize) -> bool {
    s.mark == mark && well_formed(s)
}

/// One byte: "at fill 0" a block begins with its keystream (MAC: zeros), and a full buffer is absorbed.
fn byte(s: &mut Record, input: u8) -> u8 {
    if s.fill == 0 {
        s.buf = if s.mark == MAC { [0; 32] } else { State(s.blocks).keystream() };
    }
    let output = input ^ s.buf[s.fill];
    s.buf[s.fill] = if s.mark == OPENING { output } else { input };
    s.fill += 1;
    s.msg_len += 1;
    if s.fill == 32 {
        let mut state = State(s.blocks);
        state.absorb(&s.buf);
        (s.blocks, s.buf, s.fill) = (state.0, [0; 32], 0);
    }
    output
}

/// The tag that a finish makes: it "uses only the bytes below the fill, padded with zeros"; a MAC of no data absorbs
/// one block of zeros.
pub fn tag(s: &Record) -> Vec<u8> {
    let mut state = State(s.blocks);
    if s.fill > 0 || (s.mark == MAC && s.msg_len == 0) {
        state.absorb(&std::array::from_fn(|i| if i < s.fill { s.buf[i] } else { 0 }));
    }
    match s.mark {
        MAC => state.finalize(8 * s.msg_len, 8 * s.tag_size as u64, s.tag_size),
        _ => state.finalize(8 * s.ad_len, 8 * s.msg_len, s.tag_size),
    }
}

/// The first refusal of a call, in its order.
fn refusal(call: Call, s: &Record, text: usize, buf: usize) -> Option<u8> {
    let longer_than_all = |n: usize| s.msg_len as u128 + n as u128 > LARGEST as u128;
    let first = |ladder: &[(bool, u8)]| ladder.iter().find(|(applies, _)| *applies).map(|(_, answer)| *answer);
    let is = |mark: usize| (!live(s, mark), NOT_LIVE);
    let other_buffer = (buf != s.room, OTHER_BUFFER);
    match call {
        Call::SealPiece => first(&[is(SEALING), (text != buf, LENGTHS_DIFFER), (longer_than_all(text), MESSAGE_TOO_LONG)]),
        Call::SealPieceInPlace => first(&[is(SEALING), (longer_than_all(buf), MESSAGE_TOO_LONG)]),
        Call::SealFinish => first(&[is(SEALING), (buf != s.tag_size, WRONG_TAG_SIZE)]),
        Call::OpenPiece => {
            let no_room = live(s, OPENING) && text > s.room - s.written;
            first(&[is(OPENING), other_buffer, (no_room, NO_ROOM), (longer_than_all(text), MESSAGE_TOO_LONG)])
        }
        Call::OpenFinish => first(&[is(OPENING), other_buffer, (text != s.tag_size, WRONG_TAG_SIZE)]),
        Call::Abort => {
            let any = [SEALING, OPENING, MAC].iter().any(|mark| live(s, *mark));
            first(&[(!any, NOT_LIVE), (s.mark == OPENING && buf != s.room, OTHER_BUFFER)])
        }
        Call::MacPiece => first(&[is(MAC), (longer_than_all(text), MESSAGE_TOO_LONG)]),
        Call::MacFinish => first(&[is(MAC), (buf != s.tag_size, WRONG_TAG_SIZE)]),
        Call::MacFinishCheck => first(&[is(MAC), (text != s.tag_size, WRONG_TAG_SIZE)]),
    }
}

/// A call on a lent record: the answer and the number beside it. A refusal changes nothing and hands back 0.
pub fn call(call: Call, s: &mut Record, text: &[u8], buf: &mut [u8]) -> (u8, usize) {
    if let Some(answer) = refusal(call, s, text.len(), buf.len()) {
        return (answer, 0);
    }
    match call {
        Call::SealPiece => {
            for (out, msg) in buf.iter_mut().zip(text) {
                *out = byte(s, *msg);
            }
            (DONE, 0)
        }
        Call::SealPieceInPlace => {
            buf.iter_mut().for_each(|b| *b = byte(s, *b));
            (DONE, 0)
        }
        Call::OpenPiece => {
            for ct in text {
                buf[s.written] = byte(s, *ct);
                s.written += 1;
            }
            (DONE, 0)
        }
        Call::MacPiece => {
            for data in text {
                byte(s, *data);
            }
            (DONE, 0)
        }
        Call::SealFinish | Call::MacFinish => {
            buf.copy_from_slice(&tag(s));
            end(s, DONE, 0)
        }
        Call::MacFinishCheck => {
            let answer = if tag(s) == text { DONE } else { TAG_DIFFERS };
            end(s, answer, 0)
        }
        Call::OpenFinish if tag(s) == text => {
            let written = s.written;
            end(s, DONE, written)
        }
        Call::OpenFinish => {
            buf[..s.written].fill(0);
            end(s, TAG_DIFFERS, 0)
        }
        Call::Abort => {
            if s.mark == OPENING {
                buf[..s.written].fill(0);
            }
            end(s, DONE, 0)
        }
    }
}

fn end(s: &mut Record, answer: u8, count: usize) -> (u8, usize) {
    *s = over();
    (answer, count)
}
