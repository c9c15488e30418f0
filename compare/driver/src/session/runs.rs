//! Runs of a session beside the Rust's `Encryptor`, `Decryptor` and `Aegis128LMac`.

use super::model::{MAC, OPENING, SEALING};
use super::record::Record;
use super::{start, step, Call, Start};
use crate::answers::*;
use crate::difference::{hex, Bytes, Difference};
use crate::guarded::pattern;
use crate::random::Random;
use aegis_table::aegis128l::{Aegis128L, Aegis128LMac};

/// What a run starts from.
pub struct Setup {
    pub key: [u8; 16],
    pub nonce: [u8; 16],
    pub ad: Vec<u8>,
    pub tag_size: usize,
}

/// How a run of an opener ends.
#[derive(Clone, Copy, PartialEq, Eq)]
pub enum Ending {
    RightTag,
    WrongTag,
    Abort,
}

impl Setup {
    /// In a record that held any bytes.
    pub fn start(&self, mark: usize, room: usize) -> Result<Record, Difference> {
        let Setup { key, nonce, ad, tag_size } = self;
        let ad: &[u8] = if mark == MAC { &[] } else { ad };
        let held = Random::new(u64::from_le_bytes(std::array::from_fn(|i| nonce[i]))).array();
        let (answer, record) = start(&Start { mark, key, nonce, ad, tag_size: *tag_size, room }, held)?;
        self.demand("a start is accepted", DONE, answer, &[], &[])?;
        Ok(record)
    }

    /// A fact about a run, or the run that breaks it.
    pub fn demand<T: PartialEq + std::fmt::Debug>(
        &self,
        what: &str,
        expected: T,
        got: T,
        text: &[u8],
        pieces: &[usize],
    ) -> Result<(), Difference> {
        if expected == got {
            return Ok(());
        }
        let Setup { key, nonce, ad, tag_size } = self;
        let setup = format!("  key {}\n  nonce {}\n  ad {}\n  tag size {tag_size}", hex(key), hex(nonce), Bytes(ad));
        let run = format!("{setup}\n  text {}\n  pieces {pieces:?}", Bytes(text));
        Err(Difference(format!("{what}\ninput:\n{run}\nexpected: {expected:02x?}\ngot:      {got:02x?}")))
    }

    /// Sealing in these pieces; those with an odd number plus `turn` are sealed in place.
    pub fn seal(&self, msg: &[u8], pieces: &[usize], turn: usize, between: &mut Between) -> Result<(Vec<u8>, Vec<u8>), Difference> {
        match self.tag_size {
            16 => self.sealed::<16>(msg, pieces, turn, between),
            _ => self.sealed::<32>(msg, pieces, turn, between),
        }
    }

    fn sealed<const T: usize>(
        &self,
        msg: &[u8],
        pieces: &[usize],
        turn: usize,
        between: &mut Between,
    ) -> Result<(Vec<u8>, Vec<u8>), Difference> {
        let mut rust = Aegis128L::<T>::new(&self.key, &self.nonce).encryptor(&self.ad);
        let mut session = self.start(SEALING, 0)?;
        let (mut ct, mut rust_ct) = (vec![], vec![0; msg.len()]);
        for (i, n) in pieces.iter().enumerate() {
            between(&mut session, &mut [])?;
            let at = ct.len();
            let piece = &msg[at..at + n];
            rust.update(piece, &mut rust_ct[at..at + n]);
            let mut out = if (i + turn) % 2 == 1 { piece.to_vec() } else { pattern(*n) };
            let answer = match (i + turn) % 2 {
                1 => step(Call::SealPieceInPlace, &mut session, &[], &mut out)?,
                _ => step(Call::SealPiece, &mut session, piece, &mut out)?,
            };
            self.demand("a sealing piece is accepted", (DONE, 0), answer, msg, pieces)?;
            ct.extend(out);
            self.record_rules(&session, &msg[..ct.len()], pieces)?;
        }
        self.demand("ciphertext is the Rust's", &rust_ct, &ct, msg, pieces)?;
        between(&mut session, &mut [])?;
        let mut tag = pattern(T);
        step(Call::SealFinish, &mut session, &[], &mut tag)?;
        self.demand("tag is the Rust's", rust.finalize().to_vec(), tag.clone(), msg, pieces)?;
        Ok((ct, tag))
    }

    /// Opening in these pieces, into a buffer with `room` bytes.
    pub fn open(&self, sealed: &Sealed, pieces: &[usize], room: usize, ending: Ending, between: &mut Between) -> Result<(), Difference> {
        match self.tag_size {
            16 => self.opened::<16>(sealed, pieces, room, ending, between),
            _ => self.opened::<32>(sealed, pieces, room, ending, between),
        }
    }

    fn opened<const T: usize>(
        &self,
        sealed: &Sealed,
        pieces: &[usize],
        room: usize,
        ending: Ending,
        between: &mut Between,
    ) -> Result<(), Difference> {
        let Sealed { ct, tag, msg } = sealed;
        let (mut plain, mut rust_plain) = (pattern(room), pattern(room));
        let mut rust = Aegis128L::<T>::new(&self.key, &self.nonce).decryptor(&self.ad, &mut rust_plain);
        let mut session = self.start(OPENING, room)?;
        let mut at = 0;
        for n in pieces {
            between(&mut session, &mut plain)?;
            let piece = &ct[at..at + n];
            let expected = if rust.update(piece).is_ok() { DONE } else { NO_ROOM };
            let (answer, _) = step(Call::OpenPiece, &mut session, piece, &mut plain)?;
            self.demand("an opening piece has the Rust's answer", expected, answer, ct, pieces)?;
            if answer == NO_ROOM {
                continue; // nothing is consumed, and the session goes on
            }
            at += n;
            let so_far = [&msg[..at], &pattern(room)[at..]].concat();
            self.demand("the output so far is the message so far", &so_far, &plain, ct, pieces)?;
            self.record_rules(&session, &msg[..at], pieces)?;
        }
        between(&mut session, &mut plain)?;
        let mut tag = tag.clone();
        if ending == Ending::WrongTag {
            tag[at % T] ^= 1 << (at % 8);
        }
        let (ours, theirs) = match ending {
            Ending::Abort => {
                drop(rust);
                (step(Call::Abort, &mut session, &[], &mut plain)?, (DONE, 0))
            }
            _ => {
                let released = rust.finalize(tag.as_slice().try_into().expect("tag size"));
                let theirs = released.map_or((TAG_DIFFERS, 0), |prefix| (DONE, prefix.len()));
                (step(Call::OpenFinish, &mut session, &tag, &mut plain)?, theirs)
            }
        };
        self.demand("the end has the Rust's answer and count", theirs, ours, ct, pieces)?;
        self.demand("the buffer is the Rust's", rust_plain, plain, ct, pieces)
    }

    /// A MAC in these pieces, finished in one copy and checked in two others.
    pub fn mac(&self, data: &[u8], pieces: &[usize], between: &mut Between) -> Result<Vec<u8>, Difference> {
        match self.tag_size {
            16 => self.tagged::<16>(data, pieces, between),
            _ => self.tagged::<32>(data, pieces, between),
        }
    }

    fn tagged<const T: usize>(&self, data: &[u8], pieces: &[usize], between: &mut Between) -> Result<Vec<u8>, Difference> {
        let mut rust = Aegis128LMac::<T>::new_with_nonce(&self.key, &self.nonce);
        let mut session = self.start(MAC, 0)?;
        let mut at = 0;
        for n in pieces {
            between(&mut session, &mut [])?;
            let piece = &data[at..at + n];
            rust.update(piece);
            step(Call::MacPiece, &mut session, piece, &mut [])?;
            at += n;
            self.record_rules(&session, &data[..at], pieces)?;
        }
        between(&mut session, &mut [])?;
        let expected = rust.finalize();
        let (mut right, mut wrong, mut tag) = (session, session, pattern(T));
        step(Call::MacFinish, &mut session, &[], &mut tag)?;
        self.demand("the MAC is the Rust's", expected.to_vec(), tag.clone(), data, pieces)?;
        let (answer, _) = step(Call::MacFinishCheck, &mut right, &tag, &mut [])?;
        self.demand("the right tag is accepted", DONE, answer, data, pieces)?;
        let mut other = tag.clone();
        other[at % T] ^= 1 << (at % 8);
        let (answer, _) = step(Call::MacFinishCheck, &mut wrong, &other, &mut [])?;
        self.demand("a wrong tag is refused", TAG_DIFFERS, answer, data, pieces)?;
        Ok(tag)
    }

    /// Document 01's rules of the record, after pieces that came to these message bytes.
    fn record_rules(&self, s: &Record, msg: &[u8], pieces: &[usize]) -> Result<(), Difference> {
        let fill = msg.len() % 32;
        let lengths = (fill, self.tag_size, msg.len() as u64);
        self.demand("fill, tag size and message length", lengths, (s.fill, s.tag_size, s.msg_len), msg, pieces)?;
        self.demand("message below the fill", &msg[msg.len() - fill..], &s.buf[..fill], msg, pieces)?;
        if fill == 0 || s.mark == MAC {
            self.demand("zeros at fill 0, and above a MAC's fill", &[0; 32][fill..], &s.buf[fill..], msg, pieces)?;
        }
        let used = if s.mark == OPENING { (msg.len(), s.room) } else { (0, 0) };
        self.demand("count written and room", used, (s.written, s.room), msg, pieces)
    }
}

/// What is done before each piece and before the end: calls that must be refused, or nothing.
pub type Between<'a> = dyn FnMut(&mut Record, &mut [u8]) -> Result<(), Difference> + 'a;

pub fn nothing(_: &mut Record, _: &mut [u8]) -> Result<(), Difference> {
    Ok(())
}

/// A message in its sealed form.
pub struct Sealed {
    pub ct: Vec<u8>,
    pub tag: Vec<u8>,
    pub msg: Vec<u8>,
}
