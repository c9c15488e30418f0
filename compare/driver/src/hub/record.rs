//! A hub record, and what the program must write for any input (document 01, "Nonce rule and hub program").

use crate::answers::{TAG_DIFFERS, WRONG_SHAPE, WRONG_TAG_SIZE};
use crate::oracle::table as rust;
use crate::random::Random;

pub const MOST_AD: usize = 512;
pub const MOST_CT: usize = 4_096;
pub const MOST_INPUT: usize = 4_675;
pub const HEAD: usize = 35;

/// What a record is sealed from.
pub struct Record {
    pub key: [u8; 16],
    pub nonce: [u8; 16],
    pub ad: Vec<u8>,
    pub msg: Vec<u8>,
    pub tag_size: usize,
}

impl Record {
    pub fn new(random: &mut Random, ad: usize, msg: usize, tag_size: usize) -> Record {
        Record { key: random.block(), nonce: random.block(), ad: random.bytes(ad), msg: random.bytes(msg), tag_size }
    }

    /// Tag size, key, nonce, AD length, AD, ciphertext, tag.
    pub fn sealed(&self) -> Vec<u8> {
        let (ct, tag) = rust::seal(&self.key, &self.nonce, &self.ad, &self.msg, self.tag_size);
        let ad_len = (self.ad.len() as u16).to_le_bytes();
        [&[self.tag_size as u8], &self.key[..], &self.nonce, &ad_len, &self.ad, &ct, &tag].concat()
    }
}

/// The plaintext or the answer, in the order of document 01.
fn opened(input: &[u8]) -> Result<Vec<u8>, u8> {
    if input.len() > MOST_INPUT || input.len() < HEAD {
        return Err(WRONG_SHAPE);
    }
    let (head, rest) = input.split_at(HEAD);
    let tag_size = head[0] as usize;
    let ad_len = head[33] as usize + 256 * head[34] as usize;
    if ad_len > MOST_AD {
        return Err(WRONG_SHAPE);
    }
    if tag_size != 16 && tag_size != 32 {
        return Err(WRONG_TAG_SIZE);
    }
    if rest.len() < ad_len + tag_size {
        return Err(WRONG_SHAPE);
    }
    let (ad, rest) = rest.split_at(ad_len);
    let (ct, tag) = rest.split_at(rest.len() - tag_size);
    if ct.len() > MOST_CT {
        return Err(WRONG_SHAPE);
    }
    let key = head[1..17].try_into().expect("16 bytes");
    let nonce = head[17..33].try_into().expect("16 bytes");
    rust::open(key, nonce, ad, ct, tag).ok_or(TAG_DIFFERS)
}

/// All that the program must write.
pub fn written(input: &[u8]) -> Vec<u8> {
    match opened(input) {
        Ok(msg) => [format!("opened {}\n", msg.len()).as_bytes(), &msg].concat(),
        Err(answer) => format!("refused {answer}\n").into_bytes(),
    }
}
