//! What a one-shot must leave: the refusals in document 01's order, then what the Rust does.

use super::{Entry, Input, Left};
use crate::answers::*;
use crate::oracle::table as rust;

pub const LARGEST: u64 = (1 << 61) - 1;

/// The lengths that decide a refusal; what an entry does not take is `None`.
pub struct Lengths {
    pub tag: Option<usize>,
    pub key: usize,
    pub nonce: usize,
    pub ad: Option<usize>,
    pub text: Option<usize>,
    pub room: Option<usize>,
}

impl Lengths {
    pub fn of(input: &Input) -> Lengths {
        let Input { entry, key, nonce, ad, text, buf, tag } = input;
        let (aead, stream) = match entry {
            Entry::Seal | Entry::SealInPlace | Entry::Open | Entry::OpenInPlace => (true, false),
            Entry::Stream | Entry::StreamXor => (false, true),
            Entry::Mac | Entry::MacCheck => (false, false),
        };
        let in_place = matches!(entry, Entry::SealInPlace | Entry::OpenInPlace);
        Lengths {
            tag: (!stream).then_some(tag.len()),
            key: key.len(),
            nonce: nonce.len(),
            ad: aead.then_some(ad.len()),
            text: (!stream).then_some(if in_place { buf.len() } else { text.len() }),
            room: (aead && !in_place).then_some(buf.len()),
        }
    }

    /// The first refusal that applies, in the order 1, 2, 3, 4, 5, 6.
    pub fn refusal(&self) -> Option<u8> {
        let too_long = |n: usize| n as u64 > LARGEST;
        let ladder = [
            (self.tag.is_some_and(|n| n != 16 && n != 32), WRONG_TAG_SIZE),
            (self.key != 16, WRONG_KEY_SIZE),
            (self.nonce != 16, WRONG_NONCE_SIZE),
            (self.ad.is_some_and(too_long), AD_TOO_LONG),
            (self.text.is_some_and(too_long), MESSAGE_TOO_LONG),
            (self.room.is_some_and(|room| room < self.text.unwrap_or(0)), NO_ROOM),
        ];
        ladder.into_iter().find(|(applies, _)| *applies).map(|(_, answer)| answer)
    }
}

pub fn left(input: &Input) -> Left {
    let unchanged = |answer| Left { answer, buf: input.buf.clone(), tag: input.tag.clone() };
    match Lengths::of(input).refusal() {
        Some(answer) => unchanged(answer),
        None => worked(input, unchanged(DONE)),
    }
}

fn verdict(right: bool) -> u8 {
    if right {
        DONE
    } else {
        TAG_DIFFERS
    }
}

/// No refusal: the Rust does it, on `left` as it was lent.
fn worked(input: &Input, mut left: Left) -> Left {
    let Input { entry, ad, text, tag, .. } = input;
    let key = input.key.as_slice().try_into().expect("16 bytes");
    let nonce = input.nonce.as_slice().try_into().expect("16 bytes");
    match entry {
        Entry::Seal => {
            let (ct, made) = rust::seal(key, nonce, ad, text, tag.len());
            left.buf[..ct.len()].copy_from_slice(&ct);
            left.tag = made;
        }
        Entry::SealInPlace => left.tag = rust::seal_in_place(key, nonce, ad, &mut left.buf, tag.len()),
        Entry::Open => {
            let opened = rust::open(key, nonce, ad, text, tag);
            left.answer = verdict(opened.is_some());
            // Added by us: the Rust hands back no buffer here. Document 01, "Erasing", says what it holds.
            left.buf[..text.len()].copy_from_slice(&opened.unwrap_or_else(|| vec![0xaa; text.len()]));
        }
        Entry::OpenInPlace => left.answer = verdict(rust::open_in_place(key, nonce, ad, &mut left.buf, tag)),
        Entry::Stream => rust::stream(key, nonce, &mut left.buf),
        Entry::StreamXor => rust::stream_xor(key, nonce, &mut left.buf),
        Entry::Mac => left.tag = rust::mac(key, nonce, text, tag.len()),
        Entry::MacCheck => left.answer = verdict(rust::mac_check(key, nonce, text, tag)),
    }
    left
}
