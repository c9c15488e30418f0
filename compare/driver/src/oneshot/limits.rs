//! What no slice of Rust can be: a length over 2^61-1, and a null pointer. Called through C's own types.

use super::{compared, expected, Entry, Input, Left};
use crate::difference::{Difference, Equal};
use crate::guarded::pattern;
use wodzerim::aegis128l::raw as ffi;

/// A pointer and a length, as C gives them.
#[derive(Clone, Copy)]
struct Lent {
    pointer: *mut u8,
    len: usize,
}

impl Lent {
    const NULL: Lent = Lent { pointer: std::ptr::null_mut(), len: 0 };

    fn of(bytes: &mut [u8]) -> Lent {
        Lent { pointer: bytes.as_mut_ptr(), len: bytes.len() }
    }

    /// No memory is this long. A call that refuses the length never follows the pointer.
    fn claiming(self, len: usize) -> Lent {
        Lent { len, ..self }
    }
}

/// The arguments of a call, in one order for all entries.
struct Arguments {
    key: Lent,
    nonce: Lent,
    ad: Lent,
    text: Lent,
    buf: Lent,
    tag: Lent,
}

/// # Safety
/// Each argument that the entry takes is memory of its length, or the call refuses because of a length.
unsafe fn call(entry: Entry, a: &Arguments) -> u8 {
    let Arguments { key: k, nonce: n, ad, text, buf, tag } = a;
    let (kp, kl, np, nl) = (k.pointer, k.len, n.pointer, n.len);
    match entry {
        Entry::Seal => {
            ffi::aegis128l_seal(kp, kl, np, nl, ad.pointer, ad.len, text.pointer, text.len, buf.pointer, buf.len, tag.pointer, tag.len)
        }
        Entry::SealInPlace => ffi::aegis128l_seal_in_place(kp, kl, np, nl, ad.pointer, ad.len, buf.pointer, buf.len, tag.pointer, tag.len),
        Entry::Open => {
            ffi::aegis128l_open(kp, kl, np, nl, ad.pointer, ad.len, text.pointer, text.len, tag.pointer, tag.len, buf.pointer, buf.len)
        }
        Entry::OpenInPlace => ffi::aegis128l_open_in_place(kp, kl, np, nl, ad.pointer, ad.len, buf.pointer, buf.len, tag.pointer, tag.len),
        Entry::Stream => ffi::aegis128l_stream(kp, kl, np, nl, buf.pointer, buf.len),
        Entry::StreamXor => ffi::aegis128l_stream_xor(kp, kl, np, nl, buf.pointer, buf.len),
        Entry::Mac => ffi::aegis128l_mac(kp, kl, np, nl, text.pointer, text.len, tag.pointer, tag.len),
        Entry::MacCheck => ffi::aegis128l_mac_check(kp, kl, np, nl, text.pointer, text.len, tag.pointer, tag.len),
    }
}

/// Calls on an input whose slices are changed by `bend` on their way to C.
fn bent(input: &Input, bend: impl Fn(&mut Arguments)) -> Left {
    let Input { mut key, mut nonce, mut ad, mut text, mut buf, mut tag, entry } = input.clone();
    let mut arguments = Arguments {
        key: Lent::of(&mut key),
        nonce: Lent::of(&mut nonce),
        ad: Lent::of(&mut ad),
        text: Lent::of(&mut text),
        buf: Lent::of(&mut buf),
        tag: Lent::of(&mut tag),
    };
    bend(&mut arguments);
    // SAFETY: `bend` keeps to what `call` asks for.
    let answer = unsafe { call(entry, &arguments) };
    Left { answer, buf, tag }
}

fn input(entry: Entry, text: usize, buf: usize) -> Input {
    let (key, nonce, ad) = (pattern(16), pattern(16), pattern(9));
    Input { entry, key, nonce, ad, text: pattern(text), buf: pattern(buf), tag: pattern(16) }
}

/// AD or message over 2^61-1 bytes, alone and with the refusals that come before and after: 4, 5, and nothing changed.
pub fn too_long() -> Equal {
    const OVER: [usize; 3] = [1 << 61, (1 << 61) + 31, 1 << 62];
    let mut count = 0;
    for entry in [Entry::Seal, Entry::SealInPlace, Entry::Open, Entry::OpenInPlace, Entry::Mac, Entry::MacCheck] {
        for (over, bits) in OVER.iter().flat_map(|o| (0..64).map(|b| (*o, b))) {
            let chosen = |i: u32| bits >> i & 1 == 1;
            let (long_ad, long_text, short_room) = (chosen(3), chosen(4), chosen(5));
            let mut input = input(entry, 20, if short_room { 19 } else { 20 });
            for (i, bytes) in [&mut input.tag, &mut input.key, &mut input.nonce].into_iter().enumerate() {
                bytes.truncate(if chosen(i as u32) { 15 } else { 16 });
            }
            let mut lengths = expected::Lengths::of(&input);
            lengths.ad = lengths.ad.map(|n| if long_ad { over } else { n });
            lengths.text = lengths.text.map(|n| if long_text { over } else { n });
            let Some(answer) = lengths.refusal() else { continue };
            let in_place = matches!(entry, Entry::SealInPlace | Entry::OpenInPlace);
            let ours = bent(&input, |a| {
                if long_ad {
                    a.ad = a.ad.claiming(over);
                }
                if long_text {
                    let text = if in_place { &mut a.buf } else { &mut a.text };
                    *text = text.claiming(over);
                }
            });
            let expected = Left { answer, buf: input.buf.clone(), tag: input.tag.clone() };
            compared(&input, ours, expected)?;
            count += 1;
        }
    }
    Ok(count)
}

/// Each argument empty and null, alone and with the others: as if it were any other empty slice.
pub fn null_pointers() -> Equal {
    let mut count = 0;
    for entry in Entry::ALL {
        for chosen in 0..64u32 {
            let mut input = input(entry, 20, 20);
            let parts = [&mut input.key, &mut input.nonce, &mut input.ad, &mut input.text, &mut input.buf, &mut input.tag];
            for (i, bytes) in parts.into_iter().enumerate() {
                if chosen >> i & 1 == 1 {
                    bytes.clear();
                }
            }
            let ours = bent(&input, |a| {
                for part in [&mut a.key, &mut a.nonce, &mut a.ad, &mut a.text, &mut a.buf, &mut a.tag] {
                    if part.len == 0 {
                        *part = Lent::NULL;
                    }
                }
            });
            compared(&input, ours, expected::left(&input)).map_err(|Difference(text)| Difference(format!("null pointers: {text}")))?;
            count += 1;
        }
    }
    Ok(count)
}
