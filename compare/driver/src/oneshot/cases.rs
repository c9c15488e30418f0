//! The inputs on which the one-shots are compared.

use super::{check, limits, Entry, Input};
use crate::answers::{DONE, TAG_DIFFERS};
use crate::difference::{Difference, Equal};
use crate::guarded::pattern;
use crate::random::Random;

pub const LONGEST: usize = 65_536;

/// A key, a nonce, AD, a message and a tag size, from which the inputs of all entries are made.
struct Subject {
    key: Vec<u8>,
    nonce: Vec<u8>,
    ad: Vec<u8>,
    msg: Vec<u8>,
    tag_size: usize,
}

impl Subject {
    fn new(random: &mut Random, ad: usize, msg: usize, tag_size: usize) -> Subject {
        Subject { key: random.bytes(16), nonce: random.bytes(16), ad: random.bytes(ad), msg: random.bytes(msg), tag_size }
    }

    fn input(&self, entry: Entry, text: &[u8], buf: Vec<u8>, tag: Vec<u8>) -> Input {
        let (key, nonce, ad) = (self.key.clone(), self.nonce.clone(), self.ad.clone());
        Input { entry, key, nonce, ad, text: text.to_vec(), buf, tag }
    }

    /// Seals in both forms, into a buffer that is longer by `spare`; ciphertext and tag.
    fn seal(&self, spare: usize) -> Result<(Vec<u8>, Vec<u8>), Difference> {
        let room = pattern(self.msg.len() + spare);
        let apart = check(&self.input(Entry::Seal, &self.msg, room, pattern(self.tag_size)))?;
        check(&self.input(Entry::SealInPlace, &[], self.msg.clone(), pattern(self.tag_size)))?;
        Ok((apart.buf[..self.msg.len()].to_vec(), apart.tag))
    }

    /// Opens in both forms; `answer` is what must come of it.
    fn open(&self, ct: &[u8], tag: &[u8], spare: usize, answer: u8) -> Result<(), Difference> {
        for input in [
            self.input(Entry::Open, ct, pattern(ct.len() + spare), tag.to_vec()),
            self.input(Entry::OpenInPlace, &[], ct.to_vec(), tag.to_vec()),
        ] {
            let left = check(&input)?;
            if left.answer != answer {
                return Err(Difference(format!("both sides answer {} and not {answer}\ninput:\n{input}", left.answer)));
            }
        }
        Ok(())
    }

    /// Seals, opens, and opens with one bit damaged: six calls.
    fn whole_way(&self, random: &mut Random, spare: usize) -> Equal {
        let (mut ct, mut tag) = self.seal(spare)?;
        self.open(&ct, &tag, spare, DONE)?;
        let of_tag = ct.is_empty() || random.once_in(3);
        random.damage(if of_tag { &mut tag } else { &mut ct });
        self.open(&ct, &tag, spare, TAG_DIFFERS)?;
        Ok(6)
    }
}

/// Every message and AD length from 0 to 100, both tag sizes.
fn small_lengths() -> Equal {
    let mut random = Random::new(1);
    let mut count = 0;
    for msg in 0..=100 {
        for ad in 0..=100 {
            for tag_size in [16, 32] {
                let spare = [0, 1, 40][(msg + ad) % 3];
                count += Subject::new(&mut random, ad, msg, tag_size).whole_way(&mut random, spare)?;
            }
        }
    }
    Ok(count)
}

/// One byte each side of every multiple of 32 up to 65,536, with little AD.
fn around_blocks() -> Equal {
    let mut random = Random::new(2);
    let mut count = 0;
    for blocks in 1..=LONGEST / 32 {
        for len in [32 * blocks - 1, 32 * blocks, 32 * blocks + 1] {
            let (ad, tag_size) = (random.below(40), random.tag_size());
            let subject = Subject::new(&mut random, ad, len.min(LONGEST), tag_size);
            let (ct, tag) = subject.seal(len % 3)?;
            subject.open(&ct, &tag, len % 3, DONE)?;
            count += 4;
        }
    }
    Ok(count)
}

fn random_lengths() -> Equal {
    let mut random = Random::new(3);
    let mut count = 0;
    for _ in 0..3_000 {
        let (ad, msg, tag_size) = (random.length(LONGEST), random.length(LONGEST), random.tag_size());
        let spare = random.below(100);
        count += Subject::new(&mut random, ad, msg, tag_size).whole_way(&mut random, spare)?;
    }
    Ok(count)
}

/// Each bit of ciphertext, tag, AD, key and nonce damaged by itself; a byte taken away, a byte added.
fn damaged() -> Equal {
    let mut random = Random::new(4);
    let mut count = 0;
    for msg in [0, 1, 16, 31, 32, 33, 40] {
        for ad in [0, 1, 16, 33] {
            for tag_size in [16, 32] {
                let mut subject = Subject::new(&mut random, ad, msg, tag_size);
                let (mut ct, mut tag) = subject.seal(0)?;
                for part in 0..5 {
                    for bit in 0..8 * [msg, tag_size, ad, 16, 16][part] {
                        let flip = |s: &mut Subject, ct: &mut [u8], tag: &mut [u8]| {
                            let bytes = [ct, tag, &mut s.ad, &mut s.key, &mut s.nonce].into_iter().nth(part);
                            bytes.expect("one of five")[bit / 8] ^= 1 << (bit % 8);
                        };
                        flip(&mut subject, &mut ct, &mut tag);
                        subject.open(&ct, &tag, 3, TAG_DIFFERS)?;
                        flip(&mut subject, &mut ct, &mut tag);
                        count += 2;
                    }
                }
                let longer = [&ct[..], &[0]].concat();
                subject.open(&longer, &tag, 3, TAG_DIFFERS)?;
                if let Some((_, shorter)) = ct.split_last() {
                    subject.open(shorter, &tag, 3, TAG_DIFFERS)?;
                }
                count += 4;
            }
        }
    }
    Ok(count)
}

/// 0 to 200 one by one, and random lengths up to 65,536.
fn lengths_for_streams(random: &mut Random) -> Vec<usize> {
    (0..=200).chain((0..500).map(|_| random.below(LONGEST + 1))).chain([LONGEST]).collect()
}

/// Stream and stream xor; stream xor twice gives the buffer back.
fn streams() -> Equal {
    let mut random = Random::new(5);
    let mut count = 0;
    for len in lengths_for_streams(&mut random) {
        let subject = Subject::new(&mut random, 0, len, 16);
        check(&subject.input(Entry::Stream, &[], pattern(len), vec![]))?;
        let once = check(&subject.input(Entry::StreamXor, &[], subject.msg.clone(), vec![]))?;
        let twice = check(&subject.input(Entry::StreamXor, &[], once.buf, vec![]))?;
        if twice.buf != subject.msg {
            return Err(Difference(format!("stream xor twice is not the message, length {len}")));
        }
        count += 3;
    }
    Ok(count)
}

/// MACs of both sizes, checked with the right tag, with one bit wrong and with one bit of the data wrong.
fn macs() -> Equal {
    let mut random = Random::new(6);
    let mut count = 0;
    for len in lengths_for_streams(&mut random) {
        for tag_size in [16, 32] {
            let mut subject = Subject::new(&mut random, 0, len, tag_size);
            if len % 5 == 0 {
                subject.nonce = vec![0; 16]; // the crate's default nonce
            }
            let mut tag = check(&subject.input(Entry::Mac, &subject.msg, vec![], pattern(tag_size)))?.tag;
            let verdict = |data: &[u8], tag: &[u8], answer: u8| {
                let input = subject.input(Entry::MacCheck, data, vec![], tag.to_vec());
                match check(&input)?.answer == answer {
                    true => Ok(()),
                    false => Err(Difference(format!("both sides do not answer {answer}\ninput:\n{input}"))),
                }
            };
            verdict(&subject.msg, &tag, DONE)?;
            if len > 0 {
                let mut data = subject.msg.clone();
                random.damage(&mut data);
                verdict(&data, &tag, TAG_DIFFERS)?;
            }
            random.damage(&mut tag);
            verdict(&subject.msg, &tag, TAG_DIFFERS)?;
            count += 4;
        }
    }
    Ok(count)
}

/// Each bit of a MAC's tag wrong by itself.
fn mac_tag_bits() -> Equal {
    let mut random = Random::new(7);
    let mut count = 0;
    for len in [0, 1, 32, 33] {
        for tag_size in [16, 32] {
            let subject = Subject::new(&mut random, 0, len, tag_size);
            let tag = check(&subject.input(Entry::Mac, &subject.msg, vec![], pattern(tag_size)))?.tag;
            for bit in 0..8 * tag_size {
                let mut wrong = tag.clone();
                wrong[bit / 8] ^= 1 << (bit % 8);
                check(&subject.input(Entry::MacCheck, &subject.msg, vec![], wrong))?;
                count += 1;
            }
        }
    }
    Ok(count)
}

/// Wrong sizes of tag, key and nonce, alone and together, with each room: the first refusal, and nothing changed.
fn refusals() -> Equal {
    const SIZES: [usize; 10] = [0, 1, 8, 15, 16, 17, 31, 32, 33, 64];
    let mut random = Random::new(8);
    let mut count = 0;
    for entry in Entry::ALL {
        for (key, nonce) in SIZES.iter().flat_map(|k| SIZES.map(|n| (*k, n))) {
            for (tag, room) in SIZES.iter().flat_map(|t| [0, 32, 33, 34, 90].map(|r| (*t, r))) {
                let (key, nonce, ad, text) = (random.bytes(key), random.bytes(nonce), random.bytes(5), random.bytes(33));
                check(&Input { entry, key, nonce, ad, text, buf: pattern(room), tag: random.bytes(tag) })?;
                count += 1;
            }
        }
    }
    Ok(count)
}

pub fn run(say: &mut dyn FnMut(&str, u64)) -> Result<(), Difference> {
    say("seal and open, all lengths 0 to 100 of message and AD", small_lengths()?);
    say("seal and open, each side of every multiple of 32 to 65,536", around_blocks()?);
    say("seal and open, random lengths to 65,536", random_lengths()?);
    say("open, each bit damaged by itself", damaged()?);
    say("stream and stream xor", streams()?);
    say("MAC and MAC check", macs()?);
    say("MAC check, each bit of the tag wrong by itself", mac_tag_bits()?);
    say("refusals and their order", refusals()?);
    say("lengths over 2^61-1", limits::too_long()?);
    say("null pointers of length 0", limits::null_pointers()?);
    Ok(())
}
