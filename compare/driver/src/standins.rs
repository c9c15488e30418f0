//! What stands in for softaes, checked against FIPS 197, and the Rust over it checked against the draft's program.

use crate::difference::{same, unhex, Difference, Equal};
use crate::oracle::{plain, table};
use crate::random::Random;

type Block = [u8; 16];
type Round = fn(Block, Block) -> Block;

fn round_plain(x: Block, rk: Block) -> Block {
    use rounds::plain::{Block, SoftAesFast};
    SoftAesFast::block_encrypt(&Block::from_slice(&x), &Block::from_slice(&rk)).to_bytes()
}

fn round_table(x: Block, rk: Block) -> Block {
    use rounds::table::{Block, SoftAesFast};
    SoftAesFast::block_encrypt(&Block::from_slice(&x), &Block::from_slice(&rk)).to_bytes()
}

const ROUNDS: [(&str, Round); 3] = [("plain", round_plain), ("table", round_table), ("draft", draft::aes_round)];

fn block(hex: &str) -> Block {
    unhex(hex).try_into().expect("16 bytes")
}

/// FIPS 197, 5.2: the eleven round keys.
fn key_expansion(key: Block) -> [Block; 11] {
    let mut keys = [key; 11];
    let mut rcon = 1;
    for i in 1..11 {
        let last = keys[i - 1];
        for c in 0..4 {
            for r in 0..4 {
                let turned = match c {
                    0 => rounds::SBOX[last[12 + (r + 1) % 4] as usize] ^ if r == 0 { rcon } else { 0 },
                    _ => keys[i][4 * (c - 1) + r],
                };
                keys[i][4 * c + r] = last[4 * c + r] ^ turned;
            }
        }
        rcon = rounds::xtime(rcon);
    }
    keys
}

/// FIPS 197, 5.1: the whole cipher over one round; the last has no MixColumns.
fn aes128(key: Block, plaintext: Block, round: Round) -> Block {
    let keys = key_expansion(key);
    let mut s: Block = std::array::from_fn(|i| plaintext[i] ^ keys[0][i]);
    for rk in &keys[1..10] {
        s = round(s, *rk);
    }
    std::array::from_fn(|i| rounds::SBOX[s[i % 4 + 4 * ((i / 4 + i % 4) % 4)] as usize] ^ keys[10][i])
}

/// Appendix B and C.1 of FIPS 197 through each round, then random blocks through all of them.
fn fips_197() -> Equal {
    let published = [
        ("2b7e151628aed2a6abf7158809cf4f3c", "3243f6a8885a308d313198a2e0370734", "3925841d02dc09fbdc118597196a0b32"),
        ("000102030405060708090a0b0c0d0e0f", "00112233445566778899aabbccddeeff", "69c4e0d86a7b0430d8cdb78070b4c55a"),
    ];
    let mut count = 0;
    for (key, plaintext, ciphertext) in published {
        for (name, round) in ROUNDS {
            same("AES-128 of FIPS 197", &name, block(ciphertext), aes128(block(key), block(plaintext), round))?;
            count += 1;
        }
    }
    let mut random = Random::new(197);
    for _ in 0..10_000 {
        let (x, rk) = (random.block(), random.block());
        for (name, round) in &ROUNDS[1..] {
            same("round on random blocks", name, round_plain(x, rk), round(x, rk))?;
            count += 1;
        }
    }
    Ok(count)
}

/// The Rust over both rounds and the draft's program: sealing, opening, streams, MACs.
fn rust_and_draft() -> Equal {
    let mut random = Random::new(128);
    let mut count = 0;
    for len in 0..=100 {
        for tag_size in [16, 32] {
            let (key, nonce, msg) = (random.block(), random.block(), random.bytes(len));
            let ad = random.bytes((len * 7) % 71);
            let sealed = draft::encrypt(&key, &nonce, &ad, &msg, tag_size);
            same("seal: table round and draft", &len, &sealed, &table::seal(&key, &nonce, &ad, &msg, tag_size))?;
            same("seal: plain round and draft", &len, &sealed, &plain::seal(&key, &nonce, &ad, &msg, tag_size))?;
            let opened = draft::decrypt(&key, &nonce, &ad, &sealed.0, &sealed.1);
            same("open: table round and draft", &len, &opened, &table::open(&key, &nonce, &ad, &sealed.0, &sealed.1))?;
            same("open: plain round and draft", &len, &opened, &plain::open(&key, &nonce, &ad, &sealed.0, &sealed.1))?;
            let keystream = draft::stream(&key, &nonce, len);
            let (mut filled, mut zeros) = (vec![0x5c; len], vec![0; len]);
            table::stream(&key, &nonce, &mut filled);
            plain::stream_xor(&key, &nonce, &mut zeros);
            same("stream: table round and draft", &len, &keystream, &filled)?;
            same("stream xor of zeros: plain round and draft", &len, &keystream, &zeros)?;
            if len > 0 {
                let tag = draft::mac(&key, &nonce, &msg, tag_size);
                same("MAC: table round and draft", &len, &tag, &table::mac(&key, &nonce, &msg, tag_size))?;
                same("MAC check: plain round and draft", &len, true, plain::mac_check(&key, &nonce, &msg, &tag))?;
            }
            count += if len > 0 { 8 } else { 6 };
        }
    }
    Ok(count)
}

/// The one known difference between the crate and the draft: the crate's MAC absorbs a zero block for empty data.
fn mac_of_nothing() -> Equal {
    let zero = [0; 16];
    let case = "MAC of no data, key and nonce zero, 16-byte tag";
    same(case, &"the Rust", unhex("f4d997cc9b94227ada4fe4165422b1c8"), table::mac(&zero, &zero, &[], 16))?;
    same(case, &"the draft", unhex("ada15a2a09d214f19b1eb8b2db375063"), draft::mac(&zero, &zero, &[], 16))?;
    Ok(2)
}

pub fn run(say: &mut dyn FnMut(&str, u64)) -> Result<(), Difference> {
    say("rounds: FIPS 197 B and C.1, and each other on random blocks", fips_197()?);
    say("the Rust and the draft's program, lengths 0 to 100", rust_and_draft()?);
    say("MAC of no data: the known difference from the draft", mac_of_nothing()?);
    Ok(())
}
