//! The AES round from FIPS 197, twice: on bytes (`plain`) and with four tables of words (`table`).
//!
//! Each module offers what `aes_soft.rs` takes from the crate softaes, which is not at hand: `Block` and
//! `SoftAesFast::block_encrypt`. The driver checks both against FIPS 197's own vectors and against each other.

pub mod plain;
pub mod table;

/// Multiplication by x modulo x^8+x^4+x^3+x+1 (FIPS 197, 4.2.1).
pub const fn xtime(a: u8) -> u8 {
    (a << 1) ^ (((a >> 7) & 1) * 0x1b)
}

/// The product in GF(2^8) (FIPS 197, 4.2).
pub const fn product(a: u8, b: u8) -> u8 {
    let (mut a, mut b, mut r) = (a, b, 0);
    while b != 0 {
        if b & 1 != 0 {
            r ^= a;
        }
        a = xtime(a);
        b >>= 1;
    }
    r
}

/// The inverse, 0 to 0: a^254.
pub const fn inverse(a: u8) -> u8 {
    let (mut r, mut i) = (1, 0);
    while i < 254 {
        r = product(r, a);
        i += 1;
    }
    r
}

/// FIPS 197, 5.1.1: the inverse, then the affine map.
const fn substitute(a: u8) -> u8 {
    let b = inverse(a);
    b ^ b.rotate_left(1) ^ b.rotate_left(2) ^ b.rotate_left(3) ^ b.rotate_left(4) ^ 0x63
}

const fn make_sbox() -> [u8; 256] {
    let mut t = [0; 256];
    let mut i = 0;
    while i < 256 {
        t[i] = substitute(i as u8);
        i += 1;
    }
    t
}

const SBOX_ENTRIES: [u8; 256] = make_sbox();
pub static SBOX: [u8; 256] = SBOX_ENTRIES;

/// `^` and `&` of two blocks, entry by entry.
macro_rules! entrywise {
    ($block:ident, $($trait:ident $method:ident $op:tt),*) => {$(
        impl core::ops::$trait for $block {
            type Output = $block;
            #[inline(always)]
            fn $method(self, other: $block) -> $block {
                $block(core::array::from_fn(|i| self.0[i] $op other.0[i]))
            }
        }
    )*};
}
pub(crate) use entrywise;
