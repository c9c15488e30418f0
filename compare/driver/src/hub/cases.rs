//! The inputs that are given to the program whole.

use std::path::Path;

use super::process::{answer, demand};
use super::record::{written, Record, HEAD, MOST_AD, MOST_CT, MOST_INPUT};
use crate::difference::{same, Difference, Equal};
use crate::random::Random;

const RANDOM: u64 = 10_000;

fn check(program: &Path, what: &str, input: &[u8]) -> Result<(), Difference> {
    demand(what, input, &written(input), &answer(program, input)?)
}

/// A head with zeros for key and nonce, then `rest` zeros.
fn zeros(tag_size: u8, ad_len: u16, rest: usize) -> Vec<u8> {
    let mut input = vec![0; HEAD + rest];
    input[0] = tag_size;
    input[33..35].copy_from_slice(&ad_len.to_le_bytes());
    input
}

/// Each branch with the smallest input that reaches it, and one byte each side of each limit: what it is, the input, and
/// the answer as document 01 says it.
fn refused() -> Vec<(&'static str, Vec<u8>, u8)> {
    let mut random = Random::new(41);
    let mut sealed = |ad, msg, tag_size| Record::new(&mut random, ad, msg, tag_size).sealed();
    let without_last = |mut input: Vec<u8>| {
        input.pop();
        input
    };
    let wrong = |mut input: Vec<u8>| {
        *input.last_mut().expect("a tag") ^= 0x80;
        input
    };
    let named = [
        ("empty input", vec![], 11),
        ("one byte", vec![16], 11),
        ("34 bytes", vec![16; HEAD - 1], 11),
        ("34 bytes, tag size 0", vec![0; HEAD - 1], 11),
        ("35 bytes, tag size 0", zeros(0, 0, 0), 1),
        ("35 bytes, no room for the tag", zeros(16, 0, 0), 11),
        ("AD length 512, tag size 0", zeros(0, 512, 0), 1),
        ("AD length 513, tag size 0", zeros(0, 513, 0), 11),
        ("AD length 513, tag size 16", zeros(16, 513, 0), 11),
        ("AD length 513 that is there", sealed(513, 3, 16), 11),
        ("AD length 65,535", zeros(16, 65_535, 4_000), 11),
        ("one byte short of the 16-byte tag", without_last(sealed(0, 0, 16)), 11),
        ("one byte short of the 32-byte tag", without_last(sealed(0, 0, 32)), 11),
        ("one byte short of AD and tag", zeros(16, 512, 512 + 15), 11),
        ("nothing sealed, wrong tag of 16", wrong(sealed(0, 0, 16)), 7),
        ("nothing sealed, wrong tag of 32", wrong(sealed(0, 0, 32)), 7),
        ("AD and tag just there, wrong tag", zeros(16, 512, 512 + 16), 7),
        ("4,096 bytes, wrong tag", wrong(sealed(512, MOST_CT, 32)), 7),
        ("4,097 bytes of ciphertext, tag 16", sealed(0, MOST_CT + 1, 16), 11),
        ("4,097 bytes of ciphertext, tag 32", sealed(511, MOST_CT + 1, 32), 11),
        ("4,112 bytes of ciphertext, the longest input", sealed(512, MOST_CT + 16, 16), 11),
        ("4,676 bytes", zeros(16, 0, MOST_INPUT + 1 - HEAD), 11),
        ("4,676 bytes, tag size 0", zeros(0, 0, MOST_INPUT + 1 - HEAD), 11),
        ("4,675 bytes, tag size 0", zeros(0, 0, MOST_INPUT - HEAD), 1),
        ("a full record and one byte", [sealed(512, MOST_CT, 32), vec![0]].concat(), 11),
    ];
    let other_sizes = (0..=255).filter(|t| *t != 16 && *t != 32).map(|t| ("tag size", zeros(t, 0, 64), 1));
    named.into_iter().chain(other_sizes).collect()
}

/// Both tag sizes, AD and messages at their limits and about each length of the number that is written.
fn right() -> impl Iterator<Item = Record> {
    const MSG: [usize; 13] = [0, 1, 9, 10, 31, 32, 33, 99, 100, 999, 1_000, MOST_CT - 1, MOST_CT];
    let mut random = Random::new(42);
    let ad = [0, 1, 31, 32, 33, MOST_AD - 1, MOST_AD];
    let sizes = [16, 32].into_iter().flat_map(move |tag| ad.into_iter().flat_map(move |ad| MSG.map(|msg| (ad, msg, tag))));
    sizes.map(move |(ad, msg, tag_size)| Record::new(&mut random, ad, msg, tag_size))
}

/// The expected text is made here from the answer that stands beside the input, and must also be what the model says.
pub fn branches(program: &Path) -> Equal {
    let refused = refused().into_iter().map(|(what, input, answer)| (what, input, format!("refused {answer}\n").into_bytes()));
    let right = right().map(|record| {
        let text = [format!("opened {}\n", record.msg.len()).as_bytes(), &record.msg].concat();
        ("a right record", record.sealed(), text)
    });
    let mut count = 0;
    for (what, input, text) in refused.chain(right) {
        demand(what, &input, &text, &answer(program, &input)?)?;
        same("the model of the hub program", &what, &text, &written(&input))?;
        count += 1;
    }
    let whole = Record::new(&mut Random::new(43), 3, 5, 16).sealed();
    for len in 0..whole.len() {
        check(program, "a record cut short", &whole[..len])?;
        count += 1;
    }
    Ok(count)
}

/// As many processes at a time as the machine has processors.
fn check_all(program: &Path, what: &str, inputs: &[Vec<u8>]) -> Result<(), Difference> {
    let workers = std::thread::available_parallelism().map_or(1, |n| n.get());
    std::thread::scope(|scope| {
        let started: Vec<_> = inputs
            .chunks(inputs.len().div_ceil(workers))
            .map(|share| scope.spawn(move || share.iter().try_for_each(|input| check(program, what, input))))
            .collect();
        started.into_iter().try_for_each(|worker| worker.join().expect("a worker does not panic"))
    })
}

/// Right records, damaged ones, cut and lengthened ones, and any bytes.
pub fn random(program: &Path) -> Equal {
    let mut random = Random::new(44);
    let mut inputs = vec![];
    for _ in 0..RANDOM {
        let (ad, msg, tag_size) = (random.length(MOST_AD), random.length(MOST_CT), random.tag_size());
        let mut input = Record::new(&mut random, ad, msg, tag_size).sealed();
        match random.below(10) {
            0..=2 => {}
            3 | 4 => random.damage(&mut input),
            5 => random.damage(&mut input[..HEAD]),
            6 => input.truncate(random.below(input.len())),
            7 => {
                let more = random.length(5_000);
                input.extend(random.bytes(more));
            }
            8 => input[33..35].copy_from_slice(&(random.below(600) as u16).to_le_bytes()),
            _ => {
                let len = random.length(6_000);
                input = random.bytes(len);
                if random.once_in(2) && len > HEAD {
                    input[0] = random.tag_size() as u8;
                    input[34] %= 3;
                }
            }
        }
        inputs.push(input);
    }
    check_all(program, "random input", &inputs)?;
    Ok(RANDOM)
}
