//! The list read again: each record through the archive, the Rust and the draft's program.

use std::path::Path;

use super::{Record, END, MAC, ORACLE, REFUSED, SEAL, STREAM};
use crate::answers::{DONE, TAG_DIFFERS};
use crate::difference::{same, Bytes, Difference};
use crate::oracle::table as rust;
use wodzerim::aegis128l::raw as calls;

fn describe(r: &Record) -> String {
    let Record { kind, key, nonce, ad, msg, ct, tag } = r;
    let (key, nonce, ad, msg, ct, tag) = (Bytes(key), Bytes(nonce), Bytes(ad), Bytes(msg), Bytes(ct), Bytes(tag));
    format!("  kind {kind}\n  key {key}\n  nonce {nonce}\n  ad {ad}\n  msg {msg}\n  ct {ct}\n  tag {tag}")
}

fn check(r: &Record) -> Result<(), Difference> {
    let input = describe(r);
    let Record { key, nonce, ad, msg, ct, tag, .. } = r;
    let mut made = vec![0x5c; tag.len()];
    match r.kind {
        SEAL => {
            let sealed = (ct.clone(), tag.clone());
            same("recorded seal, the Rust", &input, &sealed, &rust::seal(key, nonce, ad, msg, tag.len()))?;
            same("recorded seal, the draft", &input, &sealed, &draft::encrypt(key, nonce, ad, msg, tag.len()))?;
            let mut buf = msg.clone();
            same("recorded seal, answer", &input, DONE, calls::seal_in_place(key, nonce, ad, &mut buf, &mut made))?;
            same("recorded seal", &input, &sealed, &(buf.clone(), made))?;
            same("recorded open, answer", &input, DONE, calls::open_in_place(key, nonce, ad, &mut buf, tag))?;
            same("recorded open", &input, msg, &buf)
        }
        REFUSED => {
            same("recorded refusal, the Rust", &input, None, rust::open(key, nonce, ad, ct, tag))?;
            same("recorded refusal, the draft", &input, None, draft::decrypt(key, nonce, ad, ct, tag))?;
            let mut buf = ct.clone();
            same("recorded refusal, answer", &input, TAG_DIFFERS, calls::open_in_place(key, nonce, ad, &mut buf, tag))?;
            same("recorded refusal, buffer", &input, msg, &buf)
        }
        MAC => {
            same("recorded MAC, the Rust", &input, tag, &rust::mac(key, nonce, msg, tag.len()))?;
            if !msg.is_empty() {
                same("recorded MAC, the draft", &input, tag, &draft::mac(key, nonce, msg, tag.len()))?;
            }
            same("recorded MAC, answer", &input, DONE, calls::mac(key, nonce, msg, &mut made))?;
            same("recorded MAC", &input, tag, &made)
        }
        STREAM => {
            let mut buf = vec![0x5c; ct.len()];
            rust::stream(key, nonce, &mut buf);
            same("recorded stream, the Rust", &input, ct, &buf)?;
            same("recorded stream, the draft", &input, ct, &draft::stream(key, nonce, ct.len()))?;
            same("recorded stream, answer", &input, DONE, calls::stream(key, nonce, &mut buf))?;
            same("recorded stream", &input, ct, &buf)
        }
        kind => Err(Difference(format!("recorded: no such kind {kind}"))),
    }
}

pub fn run(file: &Path, say: &mut dyn FnMut(&str, u64)) -> Result<(), Difference> {
    let list = std::fs::read(file).map_err(|e| Difference(format!("{}: {e}", file.display())))?;
    let mut rest = list.as_slice();
    let mut counts = [0; 2];
    let mut group = 0;
    loop {
        match rest {
            [END] => break,
            [ORACLE, more @ ..] if group == 0 => (rest, group) = (more, 1),
            _ => {
                let (record, more) = Record::read(rest).ok_or(Difference("recorded: the list is cut short".into()))?;
                check(&record)?;
                counts[group] += 1;
                rest = more;
            }
        }
    }
    say("recorded: published vectors, through all sides", counts[0]);
    say("recorded: the Rust's answers, through all sides", counts[1]);
    Ok(())
}
