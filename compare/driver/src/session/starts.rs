//! Starts: every order of wrong sizes, in records that held anything before. A refused one leaves zeros and the mark.

use super::model::{self, MAC, OPENING, SEALING};
use super::record::{Record, SIZE};
use super::{start, Start};
use crate::answers::*;
use crate::difference::{same, Difference, Equal};
use crate::guarded::pattern;
use crate::random::Random;

/// What a record may hold before a start: zeros, ones, a session that is over, a live one of each kind, any bytes.
fn held(random: &mut Random, which: usize) -> [u8; SIZE] {
    let live = |mark| {
        let (key, nonce) = (pattern(16), pattern(16));
        let (_, record) = model::start(&Start { mark, key: &key, nonce: &nonce, ad: &[], tag_size: 16, room: 5 });
        Record { fill: 7, msg_len: 7, ..record }.bytes()
    };
    match which {
        0 => [0; SIZE],
        1 => [0xff; SIZE],
        2 => model::over().bytes(),
        3 => live(SEALING),
        4 => live(OPENING),
        5 => live(MAC),
        _ => random.array(),
    }
}

const HELD: usize = 8;

/// Each of its bytes: zeros, but for the first of the mark's eight (both processors have the low byte first).
fn zeros_and_the_mark() -> [u8; SIZE] {
    let mut bytes = [0; SIZE];
    bytes[192] = 3;
    bytes
}

/// One start in each of these records. A refused one is also compared with its bytes as they stand above.
fn in_any_record(random: &mut Random, s: &Start) -> Result<u64, Difference> {
    for which in 0..HELD {
        let (answer, record) = start(s, held(random, which))?;
        if answer != DONE {
            same("a refused start", &"the record after it", zeros_and_the_mark(), record.bytes())?;
        }
    }
    Ok(HELD as u64)
}

fn sizes(refused: &mut [u64; 12]) -> Equal {
    const KEYS: [usize; 5] = [0, 15, 16, 17, 32];
    const TAGS: [usize; 9] = [0, 1, 15, 16, 17, 31, 32, 33, usize::MAX];
    let mut random = Random::new(17);
    let mut count = 0;
    for mark in [SEALING, OPENING, MAC] {
        for (key, nonce) in KEYS.iter().flat_map(|k| KEYS.map(|n| (*k, n))) {
            for tag_size in TAGS {
                let (key, nonce, ad) = (random.bytes(key), random.bytes(nonce), random.below(100));
                let ad = random.bytes(if mark == MAC { 0 } else { ad });
                let room = if mark == OPENING { random.length(usize::MAX >> 1) } else { 0 };
                let s = Start { mark, key: &key, nonce: &nonce, ad: &ad, tag_size, room };
                count += in_any_record(&mut random, &s)?;
                refused[model::start(&s).0 as usize] += HELD as u64;
            }
        }
    }
    Ok(count)
}

/// Associated data of every length about the blocks, and room at both ends.
fn lengths() -> Equal {
    let mut random = Random::new(18);
    let mut count = 0;
    for (mark, ad) in [SEALING, OPENING].into_iter().flat_map(|mark| (0..=130).map(move |ad| (mark, ad))) {
        let (key, nonce, ad, tag_size) = (random.block(), random.block(), random.bytes(ad), random.tag_size());
        let room = if mark == OPENING { random.pick(&[0, 1, usize::MAX]) } else { 0 };
        count += in_any_record(&mut random, &Start { mark, key: &key, nonce: &nonce, ad: &ad, tag_size, room })?;
    }
    Ok(count)
}

pub fn run(say: &mut dyn FnMut(&str, u64)) -> Result<(), Difference> {
    let mut answers = [0; 12];
    say("starts with wrong and right sizes, in records that held anything", sizes(&mut answers)?);
    for (answer, count) in answers.into_iter().enumerate().filter(|(_, count)| *count > 0) {
        say(&format!("  of these, answer {answer}"), count);
    }
    say("starts with AD of 0 to 130 bytes, in records that held anything", lengths()?);
    Ok(())
}
