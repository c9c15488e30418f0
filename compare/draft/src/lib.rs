//! AEGIS-128L from draft-irtf-cfrg-aegis-aead and FIPS 197, written apart from the crate and from the Rattle code.
//!
//! Slow and plain on purpose: the second opinion beside the Rust, and the ground of the session model.

pub type Block = [u8; 16];

const C0: Block = [0x00, 0x01, 0x01, 0x02, 0x03, 0x05, 0x08, 0x0d, 0x15, 0x22, 0x37, 0x59, 0x90, 0xe9, 0x79, 0x62];
const C1: Block = [0xdb, 0x3d, 0x18, 0x55, 0x6d, 0xc2, 0x2f, 0xf1, 0x20, 0x11, 0x31, 0x42, 0x73, 0xb5, 0x28, 0xdd];

/// The rate: bytes absorbed by one update.
pub const RATE: usize = 32;

/// The carry-less product, reduced modulo 0x11b as it grows.
fn product(mut a: u16, mut b: u16) -> u8 {
    let mut p = 0;
    while b > 0 {
        if b & 1 == 1 {
            p ^= a;
        }
        a <<= 1;
        if a & 0x100 != 0 {
            a ^= 0x11b;
        }
        b >>= 1;
    }
    p as u8
}

/// The S-box: the inverse found by search, then the affine map bit by bit.
fn sbox() -> &'static [u8; 256] {
    static TABLE: std::sync::OnceLock<[u8; 256]> = std::sync::OnceLock::new();
    TABLE.get_or_init(|| {
        std::array::from_fn(|a| {
            let inverse = (1..256).find(|&b| product(a as u16, b) == 1).unwrap_or(0) as u8;
            let bit = |j: u32| (inverse >> (j % 8)) & 1;
            (0..8).fold(0x63, |o, i| o ^ ((bit(i) ^ bit(i + 4) ^ bit(i + 5) ^ bit(i + 6) ^ bit(i + 7)) << i))
        })
    })
}

/// AESRound(in, rk).
pub fn aes_round(x: Block, rk: Block) -> Block {
    const MIX: [[u16; 4]; 4] = [[2, 3, 1, 1], [1, 2, 3, 1], [1, 1, 2, 3], [3, 1, 1, 2]];
    let s = sbox();
    std::array::from_fn(|i| {
        let (r, c) = (i % 4, i / 4);
        (0..4).fold(rk[i], |acc, k| acc ^ product(s[x[k + 4 * ((c + k) % 4)] as usize] as u16, MIX[r][k]))
    })
}

fn xor(a: Block, b: Block) -> Block {
    std::array::from_fn(|i| a[i] ^ b[i])
}

fn and(a: Block, b: Block) -> Block {
    std::array::from_fn(|i| a[i] & b[i])
}

fn block(bytes: &[u8]) -> Block {
    bytes.try_into().expect("16 bytes")
}

/// LE64(a) || LE64(b).
fn le64(a: u64, b: u64) -> Block {
    block(&[a.to_le_bytes(), b.to_le_bytes()].concat())
}

/// Split(ZeroPad(bytes, rate), rate).
pub fn padded(bytes: &[u8]) -> Vec<[u8; RATE]> {
    let pad = |part: &[u8]| std::array::from_fn(|i| part.get(i).copied().unwrap_or(0));
    bytes.chunks(RATE).map(pad).collect()
}

/// S0 to S7.
#[derive(Clone)]
pub struct State(pub [Block; 8]);

impl State {
    /// Init(key, nonce).
    pub fn init(key: &Block, nonce: &Block) -> State {
        let (k, n) = (*key, *nonce);
        let mut s = State([xor(k, n), C1, C0, C1, xor(k, n), xor(k, C0), xor(k, C1), xor(k, C0)]);
        for _ in 0..10 {
            s.update(n, k);
        }
        s
    }

    /// Update(M0, M1).
    pub fn update(&mut self, m0: Block, m1: Block) {
        let old = self.0;
        self.0 = std::array::from_fn(|i| aes_round(old[(i + 7) % 8], old[i]));
        self.0[0] = xor(self.0[0], m0);
        self.0[4] = xor(self.0[4], m1);
    }

    /// Absorb(ai).
    pub fn absorb(&mut self, a: &[u8; RATE]) {
        self.update(block(&a[..16]), block(&a[16..]));
    }

    /// z0 || z1.
    pub fn keystream(&self) -> [u8; RATE] {
        let s = &self.0;
        let z0 = xor(xor(s[6], s[1]), and(s[2], s[3]));
        let z1 = xor(xor(s[2], s[5]), and(s[6], s[7]));
        std::array::from_fn(|i| if i < 16 { z0[i] } else { z1[i - 16] })
    }

    /// Finalize: for AEAD the bits of AD and message, for a MAC the bits of data and tag.
    pub fn finalize(&mut self, first_bits: u64, second_bits: u64, tag_size: usize) -> Vec<u8> {
        let t = xor(self.0[2], le64(first_bits, second_bits));
        for _ in 0..7 {
            self.update(t, t);
        }
        let sum = |from: usize, to: usize| (from..to).fold([0; 16], |a, i| xor(a, self.0[i]));
        match tag_size {
            16 => sum(0, 7).to_vec(),
            _ => [sum(0, 4), sum(4, 8)].concat(),
        }
    }

    fn after_ad(key: &Block, nonce: &Block, ad: &[u8]) -> State {
        let mut s = State::init(key, nonce);
        padded(ad).iter().for_each(|b| s.absorb(b));
        s
    }
}

fn bits(bytes: &[u8]) -> u64 {
    8 * bytes.len() as u64
}

fn masked(bytes: &[u8], keystream: &[u8]) -> Vec<u8> {
    bytes.iter().zip(keystream).map(|(a, z)| a ^ z).collect()
}

/// Encrypt(msg, ad, key, nonce): ciphertext and tag.
pub fn encrypt(key: &Block, nonce: &Block, ad: &[u8], msg: &[u8], tag_size: usize) -> (Vec<u8>, Vec<u8>) {
    let mut s = State::after_ad(key, nonce, ad);
    let mut ct = vec![];
    for x in padded(msg) {
        ct.extend(masked(&x, &s.keystream()));
        s.absorb(&x);
    }
    ct.truncate(msg.len());
    (ct, s.finalize(bits(ad), bits(msg), tag_size))
}

/// Decrypt(ct, tag, ad, key, nonce): the message, or nothing if the tag differs.
pub fn decrypt(key: &Block, nonce: &Block, ad: &[u8], ct: &[u8], tag: &[u8]) -> Option<Vec<u8>> {
    let mut s = State::after_ad(key, nonce, ad);
    let mut msg = vec![];
    for c in ct.chunks(RATE) {
        let x = masked(c, &s.keystream());
        s.absorb(&padded(&x)[0]);
        msg.extend(x);
    }
    (s.finalize(bits(ad), bits(ct), tag.len()) == tag).then_some(msg)
}

/// Stream(len, key, nonce).
pub fn stream(key: &Block, nonce: &Block, len: usize) -> Vec<u8> {
    encrypt(key, nonce, &[], &vec![0; len], 16).0
}

/// Mac(data, key, nonce). Empty data absorbs nothing here: the one difference from `Aegis128LMac`.
pub fn mac(key: &Block, nonce: &Block, data: &[u8], tag_size: usize) -> Vec<u8> {
    State::after_ad(key, nonce, data).finalize(bits(data), 8 * tag_size as u64, tag_size)
}
