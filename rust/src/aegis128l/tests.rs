//! The one-shots: published vectors, refusals, and what each leaves.

use super::*;
use std::vec::Vec;

fn hex<const N: usize>(text: &str) -> [u8; N] {
    assert_eq!(text.len(), 2 * N);
    core::array::from_fn(|i| u8::from_str_radix(&text[2 * i..2 * i + 2], 16).expect("hex"))
}

/// The key and the nonce of the draft's vectors.
fn draft() -> (Key, Nonce) {
    (hex("10010000000000000000000000000000"), hex("10000200000000000000000000000000"))
}

#[test]
fn the_drafts_third_vector_seals_and_opens() {
    let (key, nonce) = draft();
    let msg: Vec<u8> = (0..32).collect();
    let ct = hex::<32>("79d94593d8c2119d7e8fd9b8fc77845c5c077a05b2528b6ac54b563aed8efe84");
    let short: Tag16 = hex("cc6f3372f6aa1bb82388d695c3962d9a");
    let long: Tag32 = hex("022cb796fe7e0ae1197525ff67e309484cfbab6528ddef89f17d74ef8ecd82b3");

    let mut out = [0x5c; 34];
    assert_eq!(seal(&key, &nonce, &msg[..8], &msg, &mut out), Ok(short));
    assert_eq!((&out[..32], &out[32..]), (&ct[..], &[0x5c; 2][..]));
    let mut buf = msg.clone();
    assert_eq!(seal_in_place(&key, &nonce, &msg[..8], &mut buf), Ok(long));
    assert_eq!(buf, ct);

    assert_eq!(open(&key, &nonce, &msg[..8], &ct, &long, &mut out), Ok(()));
    assert_eq!((&out[..32], &out[32..]), (&msg[..], &[0x5c; 2][..]));
    assert_eq!(open_in_place(&key, &nonce, &msg[..8], &mut buf, &short), Ok(()));
    assert_eq!(buf, msg);
}

#[test]
fn the_drafts_mac() {
    let (key, nonce) = draft();
    let data: Vec<u8> = (0..35).collect();
    let short: Tag16 = hex("d3f09b2842ad301687d6902c921d7818");
    let long: Tag32 = hex("9490e7c89d420c9f37417fa625eb38e8cad53c5cbec55285e8499ea48377f2a3");
    assert_eq!(mac(&key, &nonce, &data), Ok(short));
    assert_eq!(mac(&key, &nonce, &data), Ok(long));
    assert_eq!(mac_check(&key, &nonce, &data, &long), Ok(()));
    assert_eq!(mac_check(&key, &nonce, &data[1..], &long), Err(Error::TagDiffers));
}

#[test]
fn the_stream_is_the_seal_of_zeros_for_one_block() {
    let (key, nonce) = draft();
    let (mut stream_bytes, mut sealed, mut twice) = ([0x5c; 32], [0; 32], [0x77; 70]);
    stream(&key, &nonce, &mut stream_bytes);
    let _: Tag16 = seal_in_place(&key, &nonce, &[], &mut sealed).expect("sealed");
    assert_eq!(stream_bytes, sealed);
    stream_xor(&key, &nonce, &mut twice);
    assert_eq!(twice[..32], stream_bytes.map(|b| b ^ 0x77));
    stream_xor(&key, &nonce, &mut twice);
    assert_eq!(twice, [0x77; 70]);
}

#[test]
fn a_wrong_tag_erases_and_too_little_room_changes_nothing() {
    let (key, nonce) = draft();
    let mut ct = [0; 20];
    let tag: Tag32 = seal(&key, &nonce, b"ad", &[9; 20], &mut ct).expect("sealed");

    let mut out = [0x5c; 25];
    assert_eq!(open(&key, &nonce, b"AD", &ct, &tag, &mut out), Err(Error::TagDiffers));
    assert_eq!((&out[..20], &out[20..]), (&[0xaa; 20][..], &[0x5c; 5][..]));
    let mut buf = ct;
    assert_eq!(open_in_place(&key, &nonce, b"AD", &mut buf, &tag), Err(Error::TagDiffers));
    assert_eq!(buf, [0xaa; 20]);

    let mut small = [0x5c; 19];
    assert_eq!(open(&key, &nonce, b"ad", &ct, &tag, &mut small), Err(Error::NoRoom));
    assert_eq!(seal::<Tag16>(&key, &nonce, b"ad", &ct, &mut small), Err(Error::NoRoom));
    assert_eq!(small, [0x5c; 19]);
}
