//! Each exported function on slices, with its answer as a number: all the unsafe code of this crate.
//!
//! Safe: Rust's slices have their length, what may be written overlaps nothing else, and the library touches nothing but what
//! it was lent. Slices that are only read may overlap each other in Rust, where the header asks C callers to lend nothing twice.
#![allow(unsafe_code, missing_docs)]

use super::ffi::{self, Opened, Session};

/// Calls an exported function: `in x` and `out x` stand for a slice's pointer and length, `is x` for a plain value.
macro_rules! call {
    (@ $name:ident ($($done:expr),*)) => {
        // SAFETY: every pointer and length below comes from one slice, and the slices are borrowed for the call.
        unsafe { ffi::$name($($done),*) }
    };
    (@ $name:ident ($($done:expr),*) in $x:ident $($rest:tt)*) => { call!(@ $name ($($done,)* $x.as_ptr(), $x.len()) $($rest)*) };
    (@ $name:ident ($($done:expr),*) out $x:ident $($rest:tt)*) => { call!(@ $name ($($done,)* $x.as_mut_ptr(), $x.len()) $($rest)*) };
    (@ $name:ident ($($done:expr),*) is $x:ident $($rest:tt)*) => { call!(@ $name ($($done,)* $x) $($rest)*) };
    ($name:ident: $($arguments:tt)*) => { call!(@ $name () $($arguments)*) };
}

pub fn seal(key: &[u8], nonce: &[u8], ad: &[u8], msg: &[u8], out: &mut [u8], tag: &mut [u8]) -> u8 {
    call!(aegis128l_seal: in key in nonce in ad in msg out out out tag)
}

pub fn seal_in_place(key: &[u8], nonce: &[u8], ad: &[u8], buf: &mut [u8], tag: &mut [u8]) -> u8 {
    call!(aegis128l_seal_in_place: in key in nonce in ad out buf out tag)
}

pub fn open(key: &[u8], nonce: &[u8], ad: &[u8], ct: &[u8], tag: &[u8], out: &mut [u8]) -> u8 {
    call!(aegis128l_open: in key in nonce in ad in ct in tag out out)
}

pub fn open_in_place(key: &[u8], nonce: &[u8], ad: &[u8], buf: &mut [u8], tag: &[u8]) -> u8 {
    call!(aegis128l_open_in_place: in key in nonce in ad out buf in tag)
}

pub fn stream(key: &[u8], nonce: &[u8], out: &mut [u8]) -> u8 {
    call!(aegis128l_stream: in key in nonce out out)
}

pub fn stream_xor(key: &[u8], nonce: &[u8], buf: &mut [u8]) -> u8 {
    call!(aegis128l_stream_xor: in key in nonce out buf)
}

pub fn mac(key: &[u8], nonce: &[u8], data: &[u8], tag: &mut [u8]) -> u8 {
    call!(aegis128l_mac: in key in nonce in data out tag)
}

pub fn mac_check(key: &[u8], nonce: &[u8], data: &[u8], tag: &[u8]) -> u8 {
    call!(aegis128l_mac_check: in key in nonce in data in tag)
}

pub fn seal_start(s: &mut Session, key: &[u8], nonce: &[u8], ad: &[u8], tag_size: usize) -> u8 {
    call!(aegis128l_seal_start: is s in key in nonce in ad is tag_size)
}

pub fn seal_piece(s: &mut Session, msg: &[u8], out: &mut [u8]) -> u8 {
    call!(aegis128l_seal_piece: is s in msg out out)
}

pub fn seal_piece_in_place(s: &mut Session, buf: &mut [u8]) -> u8 {
    call!(aegis128l_seal_piece_in_place: is s out buf)
}

pub fn seal_finish(s: &mut Session, tag: &mut [u8]) -> u8 {
    call!(aegis128l_seal_finish: is s out tag)
}

pub fn open_start(s: &mut Session, key: &[u8], nonce: &[u8], ad: &[u8], tag_size: usize, room: usize) -> u8 {
    call!(aegis128l_open_start: is s in key in nonce in ad is tag_size is room)
}

pub fn open_piece(s: &mut Session, ct: &[u8], plain: &mut [u8]) -> u8 {
    call!(aegis128l_open_piece: is s in ct out plain)
}

pub fn open_finish(s: &mut Session, tag: &[u8], plain: &mut [u8]) -> Opened {
    call!(aegis128l_open_finish: is s in tag out plain)
}

pub fn abort(s: &mut Session, plain: &mut [u8]) -> u8 {
    call!(aegis128l_abort: is s out plain)
}

pub fn mac_start(s: &mut Session, key: &[u8], nonce: &[u8], tag_size: usize) -> u8 {
    call!(aegis128l_mac_start: is s in key in nonce is tag_size)
}

pub fn mac_piece(s: &mut Session, data: &[u8]) -> u8 {
    call!(aegis128l_mac_piece: is s in data)
}

pub fn mac_finish(s: &mut Session, tag: &mut [u8]) -> u8 {
    call!(aegis128l_mac_finish: is s out tag)
}

pub fn mac_finish_check(s: &mut Session, tag: &[u8]) -> u8 {
    call!(aegis128l_mac_finish_check: is s in tag)
}

/// Makes `to` a second session that goes on like `from`: from place to place, with no copy on the stack between.
pub fn copy(from: &Session, to: &mut Session) {
    // SAFETY: both are whole records, and a record that may be written is no other one.
    unsafe { core::ptr::copy_nonoverlapping(from, to, 1) }
}
