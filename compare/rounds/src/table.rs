//! The round with four tables; words are columns, row 0 in the low byte.

use crate::{product, SBOX_ENTRIES};

/// Row 0's table is the column (2s, s, s, 3s); row r's is that, turned by r rows.
const fn make_table(row: u32) -> [u32; 256] {
    let mut t = [0; 256];
    let mut i = 0;
    while i < 256 {
        let s = SBOX_ENTRIES[i];
        t[i] = u32::from_le_bytes([product(s, 2), s, s, product(s, 3)]).rotate_left(8 * row);
        i += 1;
    }
    t
}

static T: [[u32; 256]; 4] = [make_table(0), make_table(1), make_table(2), make_table(3)];

#[derive(Copy, Clone, Debug, Default)]
pub struct Block([u32; 4]);

crate::entrywise!(Block, BitXor bitxor ^, BitAnd bitand &);

impl Block {
    #[inline(always)]
    pub fn from_slice(b: &[u8]) -> Block {
        Block(core::array::from_fn(|c| u32::from_le_bytes([b[4 * c], b[4 * c + 1], b[4 * c + 2], b[4 * c + 3]])))
    }

    #[inline(always)]
    pub fn to_bytes(self) -> [u8; 16] {
        let mut out = [0; 16];
        for (bytes, word) in out.chunks_exact_mut(4).zip(self.0) {
            bytes.copy_from_slice(&word.to_le_bytes());
        }
        out
    }

    #[inline(always)]
    fn at(&self, row: usize, column: usize) -> usize {
        (self.0[column % 4] >> (8 * row)) as usize & 0xff
    }
}

pub struct SoftAesFast;

impl SoftAesFast {
    #[inline(always)]
    pub fn block_encrypt(x: &Block, rk: &Block) -> Block {
        Block(core::array::from_fn(|c| T[0][x.at(0, c)] ^ T[1][x.at(1, c + 1)] ^ T[2][x.at(2, c + 2)] ^ T[3][x.at(3, c + 3)] ^ rk.0[c]))
    }
}
