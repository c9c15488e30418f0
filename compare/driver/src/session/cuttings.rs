//! The lengths of document 01, cut everywhere.

use super::runs::{nothing, Ending, Sealed, Setup};
use crate::difference::{Difference, Equal};
use crate::oracle::table as rust;
use crate::random::Random;

const LENGTHS: [usize; 11] = [0, 1, 15, 16, 17, 31, 32, 33, 63, 64, 65];

/// Every single cut, every pair of cuts, and byte by byte; empty pieces are among them.
fn cuttings(len: usize) -> Vec<Vec<usize>> {
    let single = (0..=len).map(|a| vec![a, len - a]);
    let pairs = (0..=len).flat_map(|a| (a..=len).map(move |b| vec![a, b - a, len - b]));
    single.chain(pairs).chain([vec![1; len]]).collect()
}

/// Runs `each` on every cutting of every length with both tag sizes; it hands back how many runs it did.
fn everywhere(seed: u64, mut each: impl FnMut(&Setup, &Sealed, &[usize]) -> Equal) -> Equal {
    let mut random = Random::new(seed);
    let mut count = 0;
    for len in LENGTHS {
        for tag_size in [16, 32] {
            let ad = random.bytes(len % 37);
            let setup = Setup { key: random.block(), nonce: random.block(), ad, tag_size };
            let msg = random.bytes(len);
            let (ct, tag) = rust::seal(&setup.key, &setup.nonce, &setup.ad, &msg, tag_size);
            let sealed = Sealed { ct, tag, msg };
            for pieces in cuttings(len) {
                count += each(&setup, &sealed, &pieces)?;
            }
        }
    }
    Ok(count)
}

/// Two runs for each cutting, so that each piece is sealed from buffer to buffer once and in place once.
fn sealing() -> Equal {
    everywhere(11, |setup, sealed, pieces| {
        for turn in [0, 1] {
            let one_shot = (sealed.ct.clone(), sealed.tag.clone());
            let in_pieces = setup.seal(&sealed.msg, pieces, turn, &mut nothing)?;
            setup.demand("in pieces as at once", one_shot, in_pieces, &sealed.msg, pieces)?;
        }
        Ok(2)
    })
}

/// With the room that is needed, and with more.
fn opening(ending: Ending) -> Equal {
    everywhere(12 + ending as u64, |setup, sealed, pieces| {
        let spare = (pieces.len() + pieces.first().unwrap_or(&0)) % 3 * 20;
        setup.open(sealed, pieces, sealed.ct.len() + spare, ending, &mut nothing)?;
        Ok(1)
    })
}

/// One byte of room less than is needed, or half of it: what doesn't fit is refused, and the rest is wiped at the end.
fn too_little_room() -> Equal {
    everywhere(15, |setup, sealed, pieces| {
        let len = sealed.ct.len();
        if len == 0 || pieces.len() > 3 {
            return Ok(0);
        }
        for (room, ending) in [(len - 1, Ending::WrongTag), (len / 2, Ending::Abort), (len - 1, Ending::RightTag)] {
            setup.open(sealed, pieces, room, ending, &mut nothing)?;
        }
        Ok(3)
    })
}

fn macs() -> Equal {
    everywhere(16, |setup, sealed, pieces| {
        let tag = setup.mac(&sealed.msg, pieces, &mut nothing)?;
        let at_once = rust::mac(&setup.key, &setup.nonce, &sealed.msg, setup.tag_size);
        setup.demand("in pieces as at once", at_once, tag, &sealed.msg, pieces)?;
        Ok(1)
    })
}

pub fn run(say: &mut dyn FnMut(&str, u64)) -> Result<(), Difference> {
    say("sealing, 0 to 65 bytes cut everywhere", sealing()?);
    say("opening, 0 to 65 bytes cut everywhere", opening(Ending::RightTag)?);
    say("opening with a wrong tag, 0 to 65 bytes cut everywhere", opening(Ending::WrongTag)?);
    say("opening and abort (drop), 0 to 65 bytes cut everywhere", opening(Ending::Abort)?);
    say("opening with too little room, 1 to 65 bytes cut everywhere", too_little_room()?);
    say("MAC, copies and checks, 0 to 65 bytes cut everywhere", macs()?);
    Ok(())
}
