//! AEGIS-128L: sealing and opening, keystream and MAC, at once by the functions here or in pieces by [`Sealer`], [`Opener`]
//! and [`Mac`].
//!
//! Never seal two messages with the same key and nonce.

mod calls;
mod ffi;
mod session;

/// The calls as C has them: slices of any length, answers as numbers, the record as plain data. For the comparison with the
/// Rust, which drives what the types of the other functions rule out.
#[cfg(feature = "raw")]
pub mod raw {
    pub use super::calls::*;
    pub use super::ffi::*;
}

pub use session::{Mac, Opener, Place, Sealer};

use crate::error::done;
use crate::Error;

/// A key.
pub type Key = [u8; 16];

/// A nonce.
pub type Nonce = [u8; 16];

/// A tag of 16 bytes. It is not half of the 32-byte one.
pub type Tag16 = [u8; 16];

/// A tag of 32 bytes.
pub type Tag32 = [u8; 32];

/// The most bytes of a message, and of associated data: 2^61-1.
pub const MAX_BYTES: u64 = (1 << 61) - 1;

/// A tag of one of the two sizes, [`Tag16`] or [`Tag32`]. The size is in the type, so that no call is refused for it.
pub trait Tag: sized::Zeros + AsRef<[u8]> + AsMut<[u8]> + Copy {}

impl Tag for Tag16 {}
impl Tag for Tag32 {}

mod sized {
    /// No other type is a tag.
    pub trait Zeros: Sized {
        const ZEROS: Self;
        const SIZE: usize = size_of::<Self>();
    }

    impl Zeros for super::Tag16 {
        const ZEROS: Self = [0; 16];
    }

    impl Zeros for super::Tag32 {
        const ZEROS: Self = [0; 32];
    }
}

/// The tag that `write` makes, unless it answers with a refusal.
fn tagged<T: Tag>(write: impl FnOnce(&mut [u8]) -> u8) -> Result<T, Error> {
    let mut tag = T::ZEROS;
    done(write(tag.as_mut()))?;
    Ok(tag)
}

/// Seals `msg` into the first bytes of `out`, and leaves the rest of `out` as it was.
///
/// # Errors
/// [`Error::AdTooLong`], [`Error::MessageTooLong`], or [`Error::NoRoom`] if `out` is shorter than `msg`; nothing is written.
///
/// ```
/// use wodzerim::aegis128l::{open, seal, Tag16};
/// # fn main() -> Result<(), wodzerim::Error> {
/// let (key, nonce) = ([7; 16], [1; 16]);
/// let mut ct = [0; 7];
/// let tag: Tag16 = seal(&key, &nonce, b"scale 258", b"34.2 kg", &mut ct)?;
/// let mut msg = [0; 7];
/// open(&key, &nonce, b"scale 258", &ct, &tag, &mut msg)?;
/// assert_eq!(&msg, b"34.2 kg");
/// # Ok(())
/// # }
/// ```
pub fn seal<T: Tag>(key: &Key, nonce: &Nonce, ad: &[u8], msg: &[u8], out: &mut [u8]) -> Result<T, Error> {
    tagged(|tag| calls::seal(key, nonce, ad, msg, out, tag))
}

/// Seals `buf` in place, all of it.
///
/// # Errors
/// [`Error::AdTooLong`] or [`Error::MessageTooLong`]; nothing is written.
///
/// ```
/// use wodzerim::aegis128l::{open_in_place, seal_in_place, Tag32};
/// # fn main() -> Result<(), wodzerim::Error> {
/// let (key, nonce, mut buf) = ([7; 16], [2; 16], *b"34.2 kg");
/// let tag: Tag32 = seal_in_place(&key, &nonce, b"", &mut buf)?;
/// assert_ne!(&buf, b"34.2 kg");
/// open_in_place(&key, &nonce, b"", &mut buf, &tag)?;
/// assert_eq!(&buf, b"34.2 kg");
/// # Ok(())
/// # }
/// ```
pub fn seal_in_place<T: Tag>(key: &Key, nonce: &Nonce, ad: &[u8], buf: &mut [u8]) -> Result<T, Error> {
    tagged(|tag| calls::seal_in_place(key, nonce, ad, buf, tag))
}

/// Opens `ct` into the first bytes of `out`, and leaves the rest of `out` as it was.
///
/// # Errors
/// [`Error::AdTooLong`], [`Error::MessageTooLong`], or [`Error::NoRoom`] if `out` is shorter than `ct`; nothing is written.
/// [`Error::TagDiffers`]: as many bytes of `out` as `ct` has are 0xaa.
///
/// ```
/// use wodzerim::aegis128l::open;
/// let mut out = [0x5c; 9];
/// let refused = open(&[7; 16], &[1; 16], b"scale 258", b"forged!", &[0; 16], &mut out);
/// assert_eq!(refused, Err(wodzerim::Error::TagDiffers));
/// assert_eq!(out, [0xaa, 0xaa, 0xaa, 0xaa, 0xaa, 0xaa, 0xaa, 0x5c, 0x5c]);
/// ```
pub fn open<T: Tag>(key: &Key, nonce: &Nonce, ad: &[u8], ct: &[u8], tag: &T, out: &mut [u8]) -> Result<(), Error> {
    done(calls::open(key, nonce, ad, ct, tag.as_ref(), out))
}

/// Opens `buf` in place, all of it; see [`seal_in_place`].
///
/// # Errors
/// [`Error::AdTooLong`] or [`Error::MessageTooLong`]; nothing is written. [`Error::TagDiffers`]: the whole of `buf` is 0xaa.
pub fn open_in_place<T: Tag>(key: &Key, nonce: &Nonce, ad: &[u8], buf: &mut [u8], tag: &T) -> Result<(), Error> {
    done(calls::open_in_place(key, nonce, ad, buf, tag.as_ref()))
}

/// Fills `out` with the keystream of key and nonce. Use that pair for nothing else.
pub fn stream(key: &Key, nonce: &Nonce, out: &mut [u8]) {
    never_refused(calls::stream(key, nonce, out));
}

/// Encrypts or decrypts `buf` in place WITHOUT AUTHENTICATION: `buf` xor the keystream. Twice restores it.
///
/// ```
/// use wodzerim::aegis128l::stream_xor;
/// let (key, nonce, mut buf) = ([7; 16], [3; 16], *b"34.2 kg");
/// stream_xor(&key, &nonce, &mut buf);
/// assert_ne!(&buf, b"34.2 kg");
/// stream_xor(&key, &nonce, &mut buf);
/// assert_eq!(&buf, b"34.2 kg");
/// ```
pub fn stream_xor(key: &Key, nonce: &Nonce, buf: &mut [u8]) {
    never_refused(calls::stream_xor(key, nonce, buf));
}

/// The MAC of `data`. The nonce is always given; the crate aegis takes sixteen zeros by default.
///
/// # Errors
/// [`Error::MessageTooLong`].
///
/// ```
/// use wodzerim::aegis128l::{mac, mac_check, Tag32};
/// # fn main() -> Result<(), wodzerim::Error> {
/// let (key, nonce) = ([7; 16], [4; 16]);
/// let tag: Tag32 = mac(&key, &nonce, b"34.2 kg")?;
/// mac_check(&key, &nonce, b"34.2 kg", &tag)?;
/// assert_eq!(mac_check(&key, &nonce, b"43.2 kg", &tag), Err(wodzerim::Error::TagDiffers));
/// # Ok(())
/// # }
/// ```
pub fn mac<T: Tag>(key: &Key, nonce: &Nonce, data: &[u8]) -> Result<T, Error> {
    tagged(|tag| calls::mac(key, nonce, data, tag))
}

/// Checks that `tag` is the MAC of `data`; see [`mac`].
///
/// # Errors
/// [`Error::MessageTooLong`], [`Error::TagDiffers`].
pub fn mac_check<T: Tag>(key: &Key, nonce: &Nonce, data: &[u8], tag: &T) -> Result<(), Error> {
    done(calls::mac_check(key, nonce, data, tag.as_ref()))
}

/// For calls whose every refusal the types rule out.
fn never_refused(answer: u8) {
    assert_eq!(answer, 0, "the types rule out every refusal of this call");
}

#[cfg(test)]
mod header;
#[cfg(test)]
mod tests;
