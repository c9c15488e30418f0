//! Writes the list: the published vectors of AEGIS-128L, then a sample of the Rust's answers, all from a fixed seed.

use std::path::Path;

use super::{Record, END, MAC, ORACLE, REFUSED, SEAL, STREAM};
use crate::difference::unhex;
use crate::json::{self, Value};
use crate::oracle::plain as rust;
use crate::random::Random;

const LENGTHS: [usize; 11] = [0, 1, 15, 16, 17, 31, 32, 33, 63, 64, 65];
const AD_LENGTHS: [usize; 5] = [0, 1, 31, 32, 33];

/// The records of one published vector: one for each tag that it gives.
fn published(vector: &Value) -> Vec<Record> {
    let field = |name: &str| vector.text(name).map(unhex);
    let kind = match vector.text("kind") {
        Some("seal") => SEAL,
        Some("open-refused") => REFUSED,
        Some("mac") => MAC,
        _ => return vec![],
    };
    let block = |name: &str| field(name).and_then(|b| b.try_into().ok()).expect("a key and a nonce of 16 bytes");
    let (key, nonce, ad) = (block("key"), block("nonce"), field("ad").unwrap_or_default());
    let msg = field("msg").or_else(|| field("data")).or_else(|| field("buffer_after")).expect("a message");
    let ct = field("ct").unwrap_or_default();
    let tags = ["tag128", "tag256", "tag"].into_iter().filter_map(field);
    tags.map(|tag| Record { kind, key, nonce, ad: ad.clone(), msg: msg.clone(), ct: ct.clone(), tag }).collect()
}

fn published_in(file: &Path) -> Result<Vec<Record>, String> {
    let text = std::fs::read_to_string(file).map_err(|e| format!("{}: {e}", file.display()))?;
    let vectors = json::list(&text).map_err(|e| format!("{}: {e}", file.display()))?;
    Ok(vectors.iter().filter(|v| v.text("alg") == Some("128l")).flat_map(published).collect())
}

fn sealed(random: &mut Random, ad: usize, msg: usize, tag_size: usize) -> Record {
    let (key, nonce, ad, msg) = (random.block(), random.block(), random.bytes(ad), random.bytes(msg));
    let (ct, tag) = rust::seal(&key, &nonce, &ad, &msg, tag_size);
    Record { kind: SEAL, key, nonce, ad, msg, ct, tag }
}

/// One bit of a sealed record damaged, anywhere in key, nonce, AD, ciphertext or tag.
fn damaged(random: &mut Random, mut record: Record) -> Record {
    let parts: [&mut [u8]; 5] = [&mut record.ct, &mut record.tag, &mut record.ad, &mut record.key, &mut record.nonce];
    let mut parts: Vec<_> = parts.into_iter().filter(|part| !part.is_empty()).collect();
    let chosen = random.below(parts.len());
    random.damage(parts[chosen]);
    let mut buf = record.ct.clone();
    assert!(!rust::open_in_place(&record.key, &record.nonce, &record.ad, &mut buf, &record.tag));
    Record { kind: REFUSED, msg: buf, ..record }
}

fn mac(random: &mut Random, len: usize, tag_size: usize) -> Record {
    let (key, nonce, msg) = (random.block(), random.block(), random.bytes(len));
    let tag = rust::mac(&key, &nonce, &msg, tag_size);
    Record { kind: MAC, key, nonce, ad: vec![], msg, ct: vec![], tag }
}

fn stream(random: &mut Random, len: usize) -> Record {
    let (key, nonce, mut ct) = (random.block(), random.block(), vec![0x5c; len]);
    rust::stream(&key, &nonce, &mut ct);
    Record { kind: STREAM, key, nonce, ad: vec![], msg: vec![], ct, tag: vec![] }
}

/// Document 01's lengths with some AD and both tag sizes, then random ones up to 300 bytes; each kind.
fn sample() -> Vec<Record> {
    let mut random = Random::new(51);
    let mut records = vec![];
    for len in LENGTHS {
        for tag_size in [16, 32] {
            for ad in AD_LENGTHS {
                let record = sealed(&mut random, ad, len, tag_size);
                records.extend([record.clone(), damaged(&mut random, record)]);
            }
            records.push(mac(&mut random, len, tag_size));
        }
        records.push(stream(&mut random, len));
    }
    for _ in 0..60 {
        let (ad, len, tag_size) = (random.below(301), random.below(301), random.tag_size());
        let record = sealed(&mut random, ad, len, tag_size);
        records.extend([record.clone(), damaged(&mut random, record)]);
    }
    for _ in 0..20 {
        let (len, tag_size) = (random.below(301), random.tag_size());
        records.extend([mac(&mut random, len, tag_size), stream(&mut random, len)]);
    }
    records
}

/// Writes the list to `file`, taking the published vectors from `folder`.
pub fn write(file: &Path, folder: &Path) -> Result<(), String> {
    let mut records = published_in(&folder.join("draft.json"))?;
    records.extend(published_in(&folder.join("libsodium-1.0.22.json"))?);
    let taken = sample();
    println!("{} published records, {} of the Rust's answers", records.len(), taken.len());
    let bytes = |records: &[Record]| records.iter().flat_map(Record::bytes).collect::<Vec<u8>>();
    let list = [bytes(&records), vec![ORACLE], bytes(&taken), vec![END]].concat();
    println!("{} bytes", list.len());
    std::fs::write(file, list).map_err(|e| format!("{}: {e}", file.display()))
}
