//! Calls in any order on any bytes in the record: no crash, and always what the model says.

use super::model::{self, LARGEST, MAC, OPENING, SEALING};
use super::record::Record;
use super::{start, step, Call, Start};
use crate::difference::{Difference, Equal};
use crate::random::Random;

const CALLS: u64 = 200_000;

/// Starts with right and wrong sizes, in the record as it was left or in one that holds any bytes.
fn started(random: &mut Random, left: &Record) -> Result<Record, Difference> {
    let size = |random: &mut Random| if random.once_in(8) { random.below(40) } else { 16 };
    let (key, nonce, ad) = (size(random), size(random), random.below(80));
    let (key, nonce, ad) = (random.bytes(key), random.bytes(nonce), random.bytes(ad));
    let tag_size = if random.once_in(8) { random.below(40) } else { random.tag_size() };
    let mark = random.pick(&[SEALING, OPENING, MAC]);
    let (ad, room) = (if mark == MAC { vec![] } else { ad }, if mark == OPENING { random.below(150) } else { 0 });
    let held = if random.once_in(2) { left.bytes() } else { random.array() };
    Ok(start(&Start { mark, key: &key, nonce: &nonce, ad: &ad, tag_size, room }, held)?.1)
}

fn any_length(random: &mut Random) -> u64 {
    match random.below(4) {
        0 => random.next(),
        1 => LARGEST + 2 - random.below(70) as u64,
        _ => random.below(200) as u64,
    }
}

/// A record that no start made, well formed more often than not.
fn made_up(random: &mut Random) -> Record {
    let mut s = Record {
        blocks: std::array::from_fn(|_| random.block()),
        buf: random.bytes(32).try_into().expect("32 bytes"),
        fill: 0,
        ad_len: any_length(random),
        msg_len: any_length(random),
        tag_size: random.tag_size(),
        mark: random.pick(&[SEALING, OPENING, MAC]),
        room: random.below(200),
        written: random.below(200),
    };
    s.fill = (s.msg_len % 32) as usize;
    if s.mark == OPENING {
        s.msg_len = random.below(100) as u64;
        s.fill = s.msg_len as usize % 32;
        s.written = s.msg_len as usize;
        s.room = s.written + random.below(100);
    }
    if random.once_in(2) {
        spoil(random, &mut s);
    }
    s
}

/// One field changed to anything, or to something near.
fn spoil(random: &mut Random, s: &mut Record) {
    let far = random.next();
    let near = |x: u64, random: &mut Random| x.wrapping_add(random.below(3) as u64).wrapping_sub(1);
    let change = |x: u64, random: &mut Random| if random.once_in(2) { far } else { near(x, random) };
    match random.below(8) {
        0 => s.fill = change(s.fill as u64, random) as usize,
        1 => s.ad_len = change(s.ad_len, random),
        2 => s.msg_len = change(s.msg_len, random),
        3 => s.tag_size = change(s.tag_size as u64, random) as usize,
        4 if random.once_in(2) => s.mark |= 1 << (8 + far % 56), // one byte of it is still a kind's
        4 => s.mark = far as usize,
        5 => s.mark = (far % 5) as usize,
        6 => s.room = change(s.room as u64, random) as usize,
        _ => s.written = change(s.written as u64, random) as usize,
    }
}

/// Often the length that is asked for, else any.
fn near_length(random: &mut Random, right: usize) -> usize {
    match random.below(8) {
        0 => random.below(200),
        1 if right < 300 => right + random.below(3),
        _ if right < 300 => right,
        _ => random.below(200),
    }
}

/// One call with buffers that often fit it, and often with the right tag.
fn any_call(random: &mut Random, s: &mut Record) -> Result<u8, Difference> {
    let call = match (random.once_in(4), s.mark) {
        (false, SEALING) => random.pick(&[Call::SealPiece, Call::SealPiece, Call::SealPieceInPlace, Call::SealFinish]),
        (false, OPENING) => random.pick(&[Call::OpenPiece, Call::OpenPiece, Call::OpenPiece, Call::OpenFinish]),
        (false, MAC) => random.pick(&[Call::MacPiece, Call::MacPiece, Call::MacFinish, Call::MacFinishCheck]),
        _ => random.pick(&Call::ALL),
    };
    let piece = random.length(100);
    let (text, buf) = match call {
        Call::SealPiece => (piece, near_length(random, piece)),
        Call::SealPieceInPlace => (0, piece),
        Call::SealFinish | Call::MacFinish => (0, near_length(random, s.tag_size)),
        Call::OpenPiece => (piece, near_length(random, s.room)),
        Call::OpenFinish => (near_length(random, s.tag_size), near_length(random, s.room)),
        Call::Abort => (0, near_length(random, s.room)),
        Call::MacPiece => (piece, 0),
        Call::MacFinishCheck => (near_length(random, s.tag_size), 0),
    };
    let (mut text, mut buf) = (random.bytes(text), random.bytes(buf));
    let tag_is_checked = matches!(call, Call::OpenFinish | Call::MacFinishCheck);
    if tag_is_checked && text.len() == s.tag_size && s.fill < 32 && s.msg_len <= LARGEST && s.ad_len <= LARGEST && random.once_in(2) {
        text = model::tag(s);
    }
    Ok(step(call, s, &text, &mut buf)?.0)
}

fn calls(answers: &mut [u64; 12]) -> Equal {
    let mut random = Random::new(31);
    let mut s = model::over();
    for _ in 0..CALLS {
        match random.below(10) {
            0 => s = started(&mut random, &s)?,
            1 | 2 => s = made_up(&mut random),
            3 if s.mark <= MAC => spoil(&mut random, &mut s),
            _ => {}
        }
        answers[any_call(&mut random, &mut s)? as usize] += 1;
        if s.mark > MAC && random.once_in(2) {
            s = started(&mut random, &s)?;
        }
    }
    Ok(CALLS)
}

pub fn run(say: &mut dyn FnMut(&str, u64)) -> Result<(), Difference> {
    let mut answers = [0; 12];
    say("calls in any order on any bytes in the record", calls(&mut answers)?);
    for (answer, count) in answers.into_iter().enumerate().filter(|(_, count)| *count > 0) {
        say(&format!("  of these, answer {answer}"), count);
    }
    Ok(())
}
