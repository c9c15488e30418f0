//! The eight one-shots: one call on both sides, and everything that it left compared.

mod cases;
mod expected;
mod limits;

use std::fmt;

use crate::difference::{Bytes, Difference};
use crate::driven;
use crate::guarded::{Guarded, ReadOnly};
use wodzerim::aegis128l::raw as calls;

pub use cases::run;

#[derive(Clone, Copy, Debug, PartialEq, Eq)]
pub enum Entry {
    Seal,
    SealInPlace,
    Open,
    OpenInPlace,
    Stream,
    StreamXor,
    Mac,
    MacCheck,
}

impl Entry {
    pub const ALL: [Entry; 8] =
        [Entry::Seal, Entry::SealInPlace, Entry::Open, Entry::OpenInPlace, Entry::Stream, Entry::StreamXor, Entry::Mac, Entry::MacCheck];

    /// Its name in the header.
    fn name(self) -> &'static str {
        match self {
            Entry::Seal => "aegis128l_seal",
            Entry::SealInPlace => "aegis128l_seal_in_place",
            Entry::Open => "aegis128l_open",
            Entry::OpenInPlace => "aegis128l_open_in_place",
            Entry::Stream => "aegis128l_stream",
            Entry::StreamXor => "aegis128l_stream_xor",
            Entry::Mac => "aegis128l_mac",
            Entry::MacCheck => "aegis128l_mac_check",
        }
    }
}

/// All that a call is given. `text` is what is only read (message, ciphertext or data), `buf` what is written
/// (output, or the buffer in place); an entry looks only at what it takes.
#[derive(Clone)]
pub struct Input {
    pub entry: Entry,
    pub key: Vec<u8>,
    pub nonce: Vec<u8>,
    pub ad: Vec<u8>,
    pub text: Vec<u8>,
    pub buf: Vec<u8>,
    pub tag: Vec<u8>,
}

impl fmt::Display for Input {
    fn fmt(&self, f: &mut fmt::Formatter<'_>) -> fmt::Result {
        writeln!(f, "  call  {:?}", self.entry)?;
        writeln!(f, "  key   {}", Bytes(&self.key))?;
        writeln!(f, "  nonce {}", Bytes(&self.nonce))?;
        writeln!(f, "  ad    {}", Bytes(&self.ad))?;
        writeln!(f, "  text  {}", Bytes(&self.text))?;
        writeln!(f, "  buf   {}", Bytes(&self.buf))?;
        write!(f, "  tag   {}", Bytes(&self.tag))
    }
}

/// All that a call leaves: the answer and both buffers that it may have written.
#[derive(Clone, PartialEq, Eq)]
pub struct Left {
    pub answer: u8,
    pub buf: Vec<u8>,
    pub tag: Vec<u8>,
}

impl fmt::Display for Left {
    fn fmt(&self, f: &mut fmt::Formatter<'_>) -> fmt::Result {
        write!(f, "  answer {}\n  buf   {}\n  tag   {}", self.answer, Bytes(&self.buf), Bytes(&self.tag))
    }
}

/// The call through the archive, its buffers between guards.
fn ours(input: &Input) -> Result<Left, Difference> {
    let Input { entry, key, nonce, ad, text, buf, tag } = input;
    let lent = [("key", key), ("nonce", nonce), ("ad", ad), ("text", text), ("tag to check", tag)];
    let [mut key, mut nonce, mut ad, mut text, mut check] = lent.map(|(what, bytes)| ReadOnly::new(what, bytes));
    let (mut buf, mut tag) = (Guarded::new(buf), Guarded::new(tag));
    driven::count(entry.name());
    let answer = match entry {
        Entry::Seal => calls::seal(key.lent(), nonce.lent(), ad.lent(), text.lent(), buf.lent(), tag.lent()),
        Entry::SealInPlace => calls::seal_in_place(key.lent(), nonce.lent(), ad.lent(), buf.lent(), tag.lent()),
        Entry::Open => calls::open(key.lent(), nonce.lent(), ad.lent(), text.lent(), check.lent(), buf.lent()),
        Entry::OpenInPlace => calls::open_in_place(key.lent(), nonce.lent(), ad.lent(), buf.lent(), check.lent()),
        Entry::Stream => calls::stream(key.lent(), nonce.lent(), buf.lent()),
        Entry::StreamXor => calls::stream_xor(key.lent(), nonce.lent(), buf.lent()),
        Entry::Mac => calls::mac(key.lent(), nonce.lent(), text.lent(), tag.lent()),
        Entry::MacCheck => calls::mac_check(key.lent(), nonce.lent(), text.lent(), check.lent()),
    };
    [key, nonce, ad, text, check].iter().try_for_each(|lent| lent.intact(entry.name()))?;
    Ok(Left { answer, buf: buf.seen().to_vec(), tag: tag.seen().to_vec() })
}

/// Both sides on one input. Hands back what both left.
pub fn check(input: &Input) -> Result<Left, Difference> {
    compared(input, ours(input)?, expected::left(input))
}

fn compared(input: &Input, ours: Left, expected: Left) -> Result<Left, Difference> {
    if ours == expected {
        return Ok(expected);
    }
    Err(Difference(format!("one-shot differs\ninput:\n{input}\nexpected:\n{expected}\nours:\n{ours}")))
}
