//! Sessions: each call on both sides, with the whole record and every lent byte compared after it.

mod cuttings;
mod fuzz;
mod limits;
pub mod model;
mod random_runs;
pub mod record;
mod runs;
mod starts;

use crate::difference::{Bytes, Difference};
use crate::driven;
use crate::guarded::{Guarded, ReadOnly};
use record::{Lent, Record, SIZE};
use wodzerim::aegis128l::raw::{self as calls, Session};

/// The calls on a lent record. `text` is what is only read (message, ciphertext, data, tag to check), `buf` what may be
/// written (output, buffer in place, tag, plaintext buffer).
#[derive(Clone, Copy, Debug, PartialEq, Eq)]
pub enum Call {
    SealPiece,
    SealPieceInPlace,
    SealFinish,
    OpenPiece,
    OpenFinish,
    Abort,
    MacPiece,
    MacFinish,
    MacFinishCheck,
}

impl Call {
    pub const ALL: [Call; 9] = [
        Call::SealPiece,
        Call::SealPieceInPlace,
        Call::SealFinish,
        Call::OpenPiece,
        Call::OpenFinish,
        Call::Abort,
        Call::MacPiece,
        Call::MacFinish,
        Call::MacFinishCheck,
    ];

    /// Its name in the header.
    fn name(self) -> &'static str {
        match self {
            Call::SealPiece => "aegis128l_seal_piece",
            Call::SealPieceInPlace => "aegis128l_seal_piece_in_place",
            Call::SealFinish => "aegis128l_seal_finish",
            Call::OpenPiece => "aegis128l_open_piece",
            Call::OpenFinish => "aegis128l_open_finish",
            Call::Abort => "aegis128l_abort",
            Call::MacPiece => "aegis128l_mac_piece",
            Call::MacFinish => "aegis128l_mac_finish",
            Call::MacFinishCheck => "aegis128l_mac_finish_check",
        }
    }
}

/// The call through the archive.
fn ours(call: Call, s: &mut Session, text: &[u8], buf: &mut [u8]) -> (u8, usize) {
    driven::count(call.name());
    match call {
        Call::SealPiece => (calls::seal_piece(s, text, buf), 0),
        Call::SealPieceInPlace => (calls::seal_piece_in_place(s, buf), 0),
        Call::SealFinish => (calls::seal_finish(s, buf), 0),
        Call::OpenPiece => (calls::open_piece(s, text, buf), 0),
        Call::OpenFinish => {
            let opened = calls::open_finish(s, text, buf);
            (opened.answer, opened.count)
        }
        Call::Abort => (calls::abort(s, buf), 0),
        Call::MacPiece => (calls::mac_piece(s, text), 0),
        Call::MacFinish => (calls::mac_finish(s, buf), 0),
        Call::MacFinishCheck => (calls::mac_finish_check(s, text), 0),
    }
}

/// One call on both sides; the record and `buf` go on as both left them.
pub fn step(call: Call, s: &mut Record, text: &[u8], buf: &mut [u8]) -> Result<(u8, usize), Difference> {
    let before = *s;
    let mut our_record = Lent::new(before.bytes());
    let (mut our_text, mut our_buf) = (ReadOnly::new("text", text), Guarded::new(buf));
    let got = ours(call, our_record.session(), our_text.lent(), our_buf.lent());
    our_text.intact(call.name())?;
    let lent = buf.to_vec();
    let expected = model::call(call, s, text, buf);
    if (got, &our_record.seen()[..], our_buf.seen()) == (expected, &s.bytes()[..], &*buf) {
        return Ok(expected);
    }
    let input = format!("  call {call:?}\n{before}\n  text {}\n  buf  {}", Bytes(text), Bytes(&lent));
    let left = |(answer, count): (u8, usize), record: &[u8], buf: &[u8]| {
        format!("  answer {answer}, count {count}\n{}\n  buf  {}", shown(record), Bytes(buf))
    };
    let (expected, got) = (left(expected, &s.bytes(), buf), left(got, &our_record.seen(), our_buf.seen()));
    Err(Difference(format!("session call differs\ninput:\n{input}\nexpected:\n{expected}\nours:\n{got}")))
}

/// What a start is given besides the record.
pub struct Start<'a> {
    pub mark: usize,
    pub key: &'a [u8],
    pub nonce: &'a [u8],
    pub ad: &'a [u8],
    pub tag_size: usize,
    pub room: usize,
}

/// A start on both sides; on ours in a record that held these bytes, which must not matter.
pub fn start(start: &Start, held: [u8; SIZE]) -> Result<(u8, Record), Difference> {
    let Start { mark, key, nonce, ad, tag_size, room } = *start;
    let mut lent = Lent::new(held);
    let s = lent.session();
    let [mut k, mut n, mut a] = [("key", key), ("nonce", nonce), ("ad", ad)].map(|(what, bytes)| ReadOnly::new(what, bytes));
    let (name, answer) = match mark {
        model::SEALING => ("aegis128l_seal_start", calls::seal_start(s, k.lent(), n.lent(), a.lent(), tag_size)),
        model::OPENING => ("aegis128l_open_start", calls::open_start(s, k.lent(), n.lent(), a.lent(), tag_size, room)),
        _ => ("aegis128l_mac_start", calls::mac_start(s, k.lent(), n.lent(), tag_size)),
    };
    driven::count(name);
    [k, n, a].iter().try_for_each(|lent| lent.intact(name))?;
    let (expected, record) = model::start(start);
    if (answer, &lent.seen()[..]) == (expected, &record.bytes()[..]) {
        return Ok((expected, record));
    }
    let (k, n, a, h) = (Bytes(key), Bytes(nonce), Bytes(ad), Bytes(&held));
    let input = format!("  kind {mark}, tag size {tag_size}, room {room}\n  key   {k}\n  nonce {n}\n  ad    {a}\n  held  {h}");
    let show = |answer: u8, record: &[u8]| format!("  answer {answer}\n{}", shown(record));
    let (expected, got) = (show(expected, &record.bytes()), show(answer, &lent.seen()));
    Err(Difference(format!("session start differs\ninput:\n{input}\nexpected:\n{expected}\nours:\n{got}")))
}

/// A record by its fields; if it came with its guards, one of them was written.
fn shown(bytes: &[u8]) -> String {
    match bytes.try_into() {
        Ok(record) => Record::of(record).to_string(),
        Err(_) => format!("  WRITTEN OUTSIDE OF THE RECORD: {}", Bytes(bytes)),
    }
}

pub fn run(say: &mut dyn FnMut(&str, u64)) -> Result<(), Difference> {
    starts::run(say)?;
    cuttings::run(say)?;
    random_runs::run(say)?;
    limits::run(say)?;
    fuzz::run(say)
}
