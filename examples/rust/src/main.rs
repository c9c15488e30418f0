//! Seals, damages, is refused, opens; then seals a record in three pieces and opens it in five; then a MAC. Ends with an error
//! if anything is off.

use std::process::ExitCode;

use wodzerim::aegis128l::{mac, mac_check, open, seal, Nonce, Opener, Sealer, Tag16, Tag32};
use wodzerim::Error;

const KEY: [u8; 16] = [0, 1, 2, 3, 4, 5, 6, 7, 8, 9, 10, 11, 12, 13, 14, 15];
const AD: &[u8] = b"scale 258";
const MSG: &[u8] = b"scale 258 record 1: 34.2 kg; record 2: 34.1 kg; record 3: 33.9 kg";

/// Scale 258 and a record number that is never used twice.
fn nonce(record: u64) -> Nonce {
    let mut nonce = [0; 16];
    nonce[..8].copy_from_slice(&258u64.to_le_bytes());
    nonce[8..].copy_from_slice(&record.to_le_bytes());
    nonce
}

/// Says what happened; false if it should not have.
fn expect(what: &str, ok: bool) -> bool {
    println!("{what:<52} {}", if ok { "ok" } else { "WRONG" });
    ok
}

fn at_once() -> Result<bool, Error> {
    let (mut ct, mut out) = ([0; MSG.len()], [0; MSG.len()]);
    let tag: Tag16 = seal(&KEY, &nonce(1), AD, MSG, &mut ct)?;
    let mut ok = expect("sealed", true);

    ct[5] ^= 0x04; // one bit
    let refused = open(&KEY, &nonce(1), AD, &ct, &tag, &mut out);
    ok &= expect("one bit damaged: refused", refused == Err(Error::TagDiffers));
    ok &= expect("  and the output is erased", out == [0xaa; MSG.len()]);

    ct[5] ^= 0x04;
    open(&KEY, &nonce(1), AD, &ct, &tag, &mut out)?;
    ok &= expect("bit restored: opened, the message is back", out == MSG);

    let refused = open(&KEY, &nonce(1), AD, &ct, &tag, &mut out[1..]);
    ok &= expect("too little room: refused", refused == Err(Error::NoRoom));
    Ok(ok)
}

fn in_pieces() -> Result<bool, Error> {
    let mut ct = [0; MSG.len()];
    let mut sealer = Sealer::start(&KEY, &nonce(2), AD)?;
    for (from, to) in [(0, 20), (20, 21), (21, MSG.len())] {
        sealer.piece(&MSG[from..to], &mut ct[from..to])?;
    }
    let mut tag: Tag16 = sealer.finish();
    let mut ok = expect("sealed in three pieces", true);

    let mut plain = [0x5c; MSG.len() + 8];
    let mut opener = Opener::start(&KEY, &nonce(2), AD, &mut plain)?;
    for (from, to) in [(0, 3), (3, 3), (3, 35), (35, 52), (52, ct.len())] {
        opener.piece(&ct[from..to])?;
    }
    let message = opener.finish(&tag)?; // until here nobody could read `plain`
    ok &= expect("opened in five pieces, the message is back", message == MSG);

    let mut opener = Opener::start(&KEY, &nonce(2), AD, &mut plain)?;
    opener.piece(&ct)?;
    tag[0] ^= 0x80;
    ok &= expect("wrong tag: refused at the end", opener.finish(&tag) == Err(Error::TagDiffers));
    ok &= expect("  and what was written is erased", plain[..MSG.len()] == [0; MSG.len()]);

    let mut opener = Opener::<Tag16>::start(&KEY, &nonce(2), AD, &mut plain)?;
    opener.piece(&ct[..40])?;
    drop(opener);
    ok &= expect("dropped before its end: erased, the rest untouched", plain[..40] == [0; 40] && plain[MSG.len()..] == [0x5c; 8]);
    Ok(ok)
}

fn macs() -> Result<bool, Error> {
    let tag: Tag32 = mac(&KEY, &nonce(3), MSG)?;
    mac_check(&KEY, &nonce(3), MSG, &tag)?;
    let ok = expect("MAC made and accepted", true);
    let refused = mac_check(&KEY, &nonce(3), &MSG[1..], &tag);
    Ok(ok & expect("  of a byte less it is refused", refused == Err(Error::TagDiffers)))
}

fn main() -> ExitCode {
    let all = || Ok::<bool, Error>(at_once()? & in_pieces()? & macs()?);
    match all() {
        Ok(true) => ExitCode::SUCCESS,
        Ok(false) => ExitCode::FAILURE,
        Err(error) => {
            eprintln!("{error}");
            ExitCode::FAILURE
        }
    }
}
