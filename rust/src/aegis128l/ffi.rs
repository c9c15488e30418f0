//! The functions of libwodzerim.a, as include/aegis128l.h declares them; no other file declares them.

use core::mem::{offset_of, size_of};

/// A session's record, as C has it. Any bytes in it are allowed, and every call answers. What it holds is secret, so it can be
/// neither copied nor shown.
#[repr(C)]
#[allow(missing_docs)]
pub struct Session {
    pub blocks: [[u8; 16]; 8],
    pub buf: [u8; 32],
    pub fill: usize,
    pub ad_len: u64,
    pub msg_len: u64,
    pub tag_size: usize,
    pub mark: usize,
    pub room: usize,
    pub written: usize,
}

/// What an opening finish hands back.
#[repr(C)]
#[derive(Clone, Copy, Debug, PartialEq, Eq)]
#[allow(missing_docs)]
pub struct Opened {
    pub answer: u8,
    pub count: usize,
}

// The library's own layout, on every processor that it is for: no byte of the record is padding.
const _: () = {
    assert!(offset_of!(Session, blocks) == 0);
    assert!(offset_of!(Session, buf) == 128);
    assert!(offset_of!(Session, fill) == 160);
    assert!(offset_of!(Session, ad_len) == 168);
    assert!(offset_of!(Session, msg_len) == 176);
    assert!(offset_of!(Session, tag_size) == 184);
    assert!(offset_of!(Session, mark) == 192);
    assert!(offset_of!(Session, room) == 200);
    assert!(offset_of!(Session, written) == 208);
    assert!(size_of::<Session>() == 216);
    assert!(offset_of!(Opened, answer) == 0);
    assert!(offset_of!(Opened, count) == 8);
    assert!(size_of::<Opened>() == 16);
};

/// A lent slice that is read, and one that may be written, as C takes them: each stands for two arguments.
type In = *const u8;
type Out = *mut u8;
type Len = usize;

#[rustfmt::skip]
#[allow(missing_docs)]
extern "C" {
    pub fn aegis128l_seal(key: In, key_len: Len, nonce: In, nonce_len: Len, ad: In, ad_len: Len,
        msg: In, msg_len: Len, out: Out, out_len: Len, tag: Out, tag_len: Len) -> u8;
    pub fn aegis128l_seal_in_place(key: In, key_len: Len, nonce: In, nonce_len: Len, ad: In, ad_len: Len,
        buf: Out, buf_len: Len, tag: Out, tag_len: Len) -> u8;
    pub fn aegis128l_open(key: In, key_len: Len, nonce: In, nonce_len: Len, ad: In, ad_len: Len,
        ct: In, ct_len: Len, tag: In, tag_len: Len, out: Out, out_len: Len) -> u8;
    pub fn aegis128l_open_in_place(key: In, key_len: Len, nonce: In, nonce_len: Len, ad: In, ad_len: Len,
        buf: Out, buf_len: Len, tag: In, tag_len: Len) -> u8;
    pub fn aegis128l_stream(key: In, key_len: Len, nonce: In, nonce_len: Len, out: Out, out_len: Len) -> u8;
    pub fn aegis128l_stream_xor(key: In, key_len: Len, nonce: In, nonce_len: Len, buf: Out, buf_len: Len) -> u8;
    pub fn aegis128l_mac(key: In, key_len: Len, nonce: In, nonce_len: Len, data: In, data_len: Len,
        tag: Out, tag_len: Len) -> u8;
    pub fn aegis128l_mac_check(key: In, key_len: Len, nonce: In, nonce_len: Len, data: In, data_len: Len,
        tag: In, tag_len: Len) -> u8;

    pub fn aegis128l_seal_start(s: *mut Session, key: In, key_len: Len, nonce: In, nonce_len: Len, ad: In, ad_len: Len,
        tag_size: Len) -> u8;
    pub fn aegis128l_seal_piece(s: *mut Session, msg: In, msg_len: Len, out: Out, out_len: Len) -> u8;
    pub fn aegis128l_seal_piece_in_place(s: *mut Session, buf: Out, buf_len: Len) -> u8;
    pub fn aegis128l_seal_finish(s: *mut Session, tag: Out, tag_len: Len) -> u8;

    pub fn aegis128l_open_start(s: *mut Session, key: In, key_len: Len, nonce: In, nonce_len: Len, ad: In, ad_len: Len,
        tag_size: Len, room: Len) -> u8;
    pub fn aegis128l_open_piece(s: *mut Session, ct: In, ct_len: Len, plain: Out, plain_len: Len) -> u8;
    pub fn aegis128l_open_finish(s: *mut Session, tag: In, tag_len: Len, plain: Out, plain_len: Len) -> Opened;
    pub fn aegis128l_abort(s: *mut Session, plain: Out, plain_len: Len) -> u8;

    pub fn aegis128l_mac_start(s: *mut Session, key: In, key_len: Len, nonce: In, nonce_len: Len, tag_size: Len) -> u8;
    pub fn aegis128l_mac_piece(s: *mut Session, data: In, data_len: Len) -> u8;
    pub fn aegis128l_mac_finish(s: *mut Session, tag: Out, tag_len: Len) -> u8;
    pub fn aegis128l_mac_finish_check(s: *mut Session, tag: In, tag_len: Len) -> u8;
}
