//! The round on bytes; byte r+4c is row r, column c.

use crate::{xtime, SBOX};

#[derive(Copy, Clone, Debug, Default)]
pub struct Block([u8; 16]);

crate::entrywise!(Block, BitXor bitxor ^, BitAnd bitand &);

impl Block {
    #[inline(always)]
    pub fn from_slice(b: &[u8]) -> Block {
        let mut x = [0; 16];
        x.copy_from_slice(&b[..16]);
        Block(x)
    }

    #[inline(always)]
    pub fn to_bytes(self) -> [u8; 16] {
        self.0
    }
}

pub struct SoftAesFast;

impl SoftAesFast {
    /// SubBytes, ShiftRows, MixColumns, AddRoundKey (FIPS 197, 5.1).
    #[inline(always)]
    pub fn block_encrypt(x: &Block, rk: &Block) -> Block {
        let mut out = [0; 16];
        for c in 0..4 {
            let a: [u8; 4] = core::array::from_fn(|r| SBOX[x.0[r + 4 * ((c + r) % 4)] as usize]);
            for r in 0..4 {
                let next = a[(r + 1) % 4];
                let mixed = xtime(a[r]) ^ (xtime(next) ^ next) ^ a[(r + 2) % 4] ^ a[(r + 3) % 4];
                out[r + 4 * c] = mixed ^ rk.0[r + 4 * c];
            }
        }
        Block(out)
    }
}
