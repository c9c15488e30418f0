//! The list of recorded answers that the Rattle program `vectors` reads: its format, written and read.
//!
//! Numbers are little-endian. A record is: kind (1 byte), tag size (1), key (16), nonce (16), AD length (2), message
//! length (2), AD, message, ciphertext, tag. Kinds and what they leave out:
//!
//! | kind | is | leaves out |
//! |---|---|---|
//! | 1 | message seals to ciphertext and tag, and they open to it | |
//! | 2 | ciphertext and tag are refused with 7; the message stands as the buffer after that, all 0xaa | |
//! | 3 | the MAC of the message | AD, ciphertext |
//! | 4 | the keystream, in the ciphertext's place | AD, message, tag (tag size 0) |
//! | 5 | the end of the published vectors; the Rust's answers follow | all but the kind |
//! | 0 | the end | all but the kind |

mod make;
mod replay;

pub use make::write;
pub use replay::run;

pub const END: u8 = 0;
pub const SEAL: u8 = 1;
pub const REFUSED: u8 = 2;
pub const MAC: u8 = 3;
pub const STREAM: u8 = 4;
pub const ORACLE: u8 = 5;

#[derive(Clone)]
pub struct Record {
    pub kind: u8,
    pub key: [u8; 16],
    pub nonce: [u8; 16],
    pub ad: Vec<u8>,
    pub msg: Vec<u8>,
    pub ct: Vec<u8>,
    pub tag: Vec<u8>,
}

impl Record {
    pub fn bytes(&self) -> Vec<u8> {
        let Record { kind, key, nonce, ad, msg, ct, tag } = self;
        let len = |n: usize| (n as u16).to_le_bytes();
        let msg_len = if *kind == STREAM { ct.len() } else { msg.len() };
        [&[*kind, tag.len() as u8], &key[..], nonce, &len(ad.len()), &len(msg_len), ad, msg, ct, tag].concat()
    }

    /// The record at the front of `bytes`, and what follows it.
    pub fn read(bytes: &[u8]) -> Option<(Record, &[u8])> {
        let part = |at: usize, n: usize| bytes.get(at..at + n);
        let number = |at: usize| part(at, 2).map(|b| b[0] as usize + 256 * b[1] as usize);
        let (kind, tag_size) = (*bytes.first()?, *bytes.get(1)? as usize);
        let (key, nonce) = (part(2, 16)?.try_into().ok()?, part(18, 16)?.try_into().ok()?);
        let (ad_len, len) = (number(34)?, number(36)?);
        let mut at = 38;
        let mut next = |n: usize| {
            at += n;
            part(at - n, n).map(<[u8]>::to_vec)
        };
        let ad = next(ad_len)?;
        let msg = next(if kind == STREAM { 0 } else { len })?;
        let ct = next(if kind == MAC { 0 } else { len })?;
        let tag = next(tag_size)?;
        Some((Record { kind, key, nonce, ad, msg, ct, tag }, &bytes[at..]))
    }
}
