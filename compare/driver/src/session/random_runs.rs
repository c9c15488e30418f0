//! Random cuttings up to 65,536 bytes, with empty pieces and refused calls among them.

use super::model::{LARGEST, OPENING, SEALING};
use super::record::Record;
use super::runs::{Ending, Sealed, Setup};
use super::{step, Call};
use crate::answers::*;
use crate::difference::{Difference, Equal};
use crate::guarded::pattern;
use crate::oracle::table as rust;
use crate::random::Random;

const LONGEST: usize = 65_536;
const RUNS: usize = 150;

/// Piece lengths that come to `len`: empty, short and long ones.
fn pieces(random: &mut Random, len: usize) -> Vec<usize> {
    let mut pieces = vec![];
    let mut left = len;
    while left > 0 {
        let n = match random.below(5) {
            0 => 0,
            1 => random.below(4),
            2 => random.below(70),
            _ => random.length(left),
        };
        pieces.push(n.min(left));
        left -= n.min(left);
    }
    pieces
}

/// How often each answer was given to a call that must be refused.
#[derive(Default)]
struct Refusals([u64; 12]);

/// Half of the time, one call that must be refused and must leave the live session and the buffer as they were.
fn refused(random: &mut Random, seen: &mut Refusals, s: &mut Record, plain: &mut [u8]) -> Result<(), Difference> {
    if random.once_in(2) {
        return Ok(());
    }
    let before = *s;
    let n = 1 + random.below(40);
    let text = random.bytes(n);
    let (expected, (answer, _)) = match (s.mark, random.below(5)) {
        (_, 0) => (NOT_LIVE, of_another_kind(random, s, &text)?),
        (SEALING, 1) => (LENGTHS_DIFFER, step(Call::SealPiece, s, &text, &mut pattern(n - 1))?),
        (SEALING, 2) => (WRONG_TAG_SIZE, step(Call::SealFinish, s, &[], &mut pattern(48 - s.tag_size))?),
        (SEALING, 3) => (MESSAGE_TOO_LONG, step(Call::SealPiece, &mut at_the_limit(s), &pattern(33), &mut pattern(33))?),
        (SEALING, _) => (MESSAGE_TOO_LONG, step(Call::SealPieceInPlace, &mut at_the_limit(s), &[], &mut pattern(33))?),
        (OPENING, 1) => (OTHER_BUFFER, step(Call::OpenPiece, s, &text, &mut pattern(s.room + 1))?),
        (OPENING, 2) => (OTHER_BUFFER, step(Call::Abort, s, &[], &mut pattern(s.room + n))?),
        (OPENING, 3) => (NO_ROOM, step(Call::OpenPiece, s, &pattern(s.room - s.written + 1), plain)?),
        (OPENING, _) => (WRONG_TAG_SIZE, step(Call::OpenFinish, s, &pattern(48 - s.tag_size), plain)?),
        (_, 1) => (WRONG_TAG_SIZE, step(Call::MacFinish, s, &[], &mut pattern(48 - s.tag_size))?),
        (_, 2) => (WRONG_TAG_SIZE, step(Call::MacFinishCheck, s, &text[..n.min(15)], &mut [])?),
        _ => (MESSAGE_TOO_LONG, step(Call::MacPiece, &mut at_the_limit(s), &pattern(33), &mut [])?),
    };
    if answer != expected || *s != before {
        return Err(Difference(format!("a call that must be refused with {expected} answers {answer} on {before:02x?}")));
    }
    seen.0[answer as usize] += 1;
    Ok(())
}

fn of_another_kind(random: &mut Random, s: &mut Record, text: &[u8]) -> Result<(u8, usize), Difference> {
    let call = loop {
        let call = random.pick(&Call::ALL);
        let same_kind = match call {
            Call::SealPiece | Call::SealPieceInPlace | Call::SealFinish => s.mark == SEALING,
            Call::OpenPiece | Call::OpenFinish => s.mark == OPENING,
            Call::Abort => true,
            Call::MacPiece | Call::MacFinish | Call::MacFinishCheck => s.mark != SEALING && s.mark != OPENING,
        };
        if !same_kind {
            break call;
        }
    };
    step(call, s, text, &mut pattern(text.len()))
}

/// A copy of the record with the greatest total that has the same fill: a piece of 33 bytes is too long for it.
fn at_the_limit(s: &Record) -> Record {
    Record { msg_len: LARGEST - 31 + s.fill as u64, ..*s }
}

fn run_all(seed: u64, mut each: impl FnMut(&Setup, &Sealed, &[usize], &mut Random) -> Result<(), Difference>) -> Equal {
    let mut random = Random::new(seed);
    for i in 0..RUNS {
        let (ad, len) = (random.length(3_000), if i == 0 { LONGEST } else { random.length(LONGEST) });
        let setup = Setup { key: random.block(), nonce: random.block(), ad: random.bytes(ad), tag_size: random.tag_size() };
        let msg = random.bytes(len);
        let (ct, tag) = rust::seal(&setup.key, &setup.nonce, &setup.ad, &msg, setup.tag_size);
        let cut = pieces(&mut random, len);
        each(&setup, &Sealed { ct, tag, msg }, &cut, &mut random)?;
    }
    Ok(RUNS as u64)
}

pub fn run(say: &mut dyn FnMut(&str, u64)) -> Result<(), Difference> {
    let mut seen = Refusals::default();
    let sealing = run_all(21, |setup, sealed, cut, random| {
        setup.seal(&sealed.msg, cut, random.below(2), &mut |s, p| refused(random, &mut seen, s, p)).map(|_| ())
    })?;
    say("sealing, random cuttings to 65,536 bytes, refused calls among them", sealing);
    let opening = run_all(22, |setup, sealed, cut, random| {
        let room = sealed.ct.len() + random.below(50);
        let ending = random.pick(&[Ending::RightTag, Ending::WrongTag, Ending::Abort]);
        setup.open(sealed, cut, room, ending, &mut |s, p| refused(random, &mut seen, s, p))
    })?;
    say("opening, random cuttings to 65,536 bytes, refused calls among them", opening);
    let short = run_all(23, |setup, sealed, cut, random| {
        let room = sealed.ct.len() - random.length(sealed.ct.len());
        let ending = random.pick(&[Ending::RightTag, Ending::WrongTag, Ending::Abort]);
        setup.open(sealed, cut, room, ending, &mut |s, p| refused(random, &mut seen, s, p))
    })?;
    say("opening, the same with random room", short);
    let macs =
        run_all(24, |setup, sealed, cut, random| setup.mac(&sealed.msg, cut, &mut |s, p| refused(random, &mut seen, s, p)).map(|_| ()))?;
    say("MAC, random cuttings to 65,536 bytes, refused calls among them", macs);
    for (answer, count) in seen.0.into_iter().enumerate().filter(|(_, count)| *count > 0) {
        say(&format!("refused calls among the pieces, answer {answer}"), count);
    }
    Ok(())
}
