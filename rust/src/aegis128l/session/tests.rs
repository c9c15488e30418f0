//! What stands in the record and in the buffers, from a start to its end.

use super::super::{mac, seal, Tag16, Tag32};
use super::*;
use std::mem::{forget, ManuallyDrop};
use std::vec::Vec;

const KEY: Key = [0x31; 16];
const NONCE: Nonce = [0x42; 16];
const AD: &[u8] = b"scale 258";
const MSG: &[u8] = b"scale 258 record 1: 34.2 kg; record 2: 34.1 kg; record 3: 33.9 kg";

/// The record's bytes: zeros and the mark.
fn is_over(s: &Session) -> bool {
    let Session { blocks, buf, fill, ad_len, msg_len, tag_size, mark, room, written } = s;
    let counts = (*fill, *ad_len, *msg_len, *tag_size, *room, *written);
    (blocks, buf, counts, *mark) == (&[[0; 16]; 8], &[0; 32], (0, 0, 0, 0, 0, 0), 3)
}

fn sealed<T: Tag>() -> (Vec<u8>, T) {
    let mut ct = std::vec![0; MSG.len()];
    let tag = seal(&KEY, &NONCE, AD, MSG, &mut ct).expect("sealed");
    (ct, tag)
}

/// Each pair of places, and one piece in place.
fn cut_everywhere<T: Tag + Eq + core::fmt::Debug>() {
    let (ct, tag) = sealed::<T>();
    let mut place = Place::new();
    for a in 0..=MSG.len() {
        for b in a..=MSG.len() {
            let mut out = MSG.to_vec();
            let mut sealer = Sealer::start_in(&mut place, &KEY, &NONCE, AD).expect("started");
            sealer.piece(&MSG[..a], &mut out[..a]).expect("sealed");
            sealer.piece_in_place(&mut out[a..b]).expect("sealed");
            sealer.piece(&MSG[b..], &mut out[b..]).expect("sealed");
            let made: T = sealer.finish();
            assert_eq!((&out, made), (&ct, tag));

            let mut plain = [0x5c; MSG.len() + 8];
            let mut opener = Opener::start_in(&mut place, &KEY, &NONCE, AD, &mut plain).expect("started");
            for piece in [&ct[..a], &ct[a..b], &ct[b..]] {
                opener.piece(piece).expect("opened");
            }
            assert_eq!(opener.finish(&tag).expect("the right tag"), MSG);
            assert_eq!(plain[MSG.len()..], [0x5c; 8]);
        }
    }
}

#[test]
fn however_cut_it_is_the_one_shot_16() {
    cut_everywhere::<Tag16>();
}

#[test]
fn however_cut_it_is_the_one_shot_32() {
    cut_everywhere::<Tag32>();
}

#[test]
fn a_place_holds_zeros_before_and_after() {
    let (ct, mut tag) = sealed::<Tag16>();
    let mut place = Place::new();
    assert!(is_over(&place.0));

    let mut sealer = Sealer::start_in(&mut place, &KEY, &NONCE, AD).expect("started");
    sealer.piece(MSG, &mut std::vec![0; MSG.len()]).expect("sealed");
    assert!(!is_over(sealer.home.look()));
    let _: Tag16 = sealer.finish();
    assert!(is_over(&place.0), "after a sealing finish");

    drop(Sealer::<Tag32>::start_in(&mut place, &KEY, &NONCE, AD).expect("started"));
    assert!(is_over(&place.0), "after a sealer was dropped");

    tag[3] ^= 1;
    let mut plain = [0x5c; MSG.len()];
    let mut opener = Opener::start_in(&mut place, &KEY, &NONCE, AD, &mut plain).expect("started");
    opener.piece(&ct).expect("opened");
    assert_eq!(opener.finish(&tag), Err(Error::TagDiffers));
    assert!(is_over(&place.0), "after a wrong tag");

    let mut mac = Mac::<Tag16>::start_in(&mut place, &KEY, &NONCE);
    mac.piece(MSG).expect("taken");
    drop(mac);
    assert!(is_over(&place.0), "after a MAC was dropped");
}

#[test]
fn what_an_opener_wrote_is_erased_and_no_other_byte() {
    let (ct, mut tag) = sealed::<Tag16>();
    let mut plain = [0x5c; MSG.len() + 8];
    let mut place = Place::new();

    let mut opener = Opener::<Tag16>::start_in(&mut place, &KEY, &NONCE, AD, &mut plain).expect("started");
    opener.piece(&ct[..40]).expect("opened");
    drop(opener);
    assert_eq!((&plain[..40], &plain[40..]), (&[0; 40][..], &[0x5c; MSG.len() + 8 - 40][..]));

    tag[15] ^= 0x80;
    let mut opener = Opener::start_in(&mut place, &KEY, &NONCE, AD, &mut plain).expect("started");
    opener.piece(&ct).expect("opened");
    assert_eq!(opener.finish(&tag), Err(Error::TagDiffers));
    assert_eq!((&plain[..MSG.len()], &plain[MSG.len()..]), (&[0; MSG.len()][..], &[0x5c; 8][..]));
}

#[test]
fn a_refused_piece_counts_for_nothing() {
    let (ct, tag) = sealed::<Tag32>();
    let (mut place, mut out) = (Place::new(), MSG.to_vec());
    let mut sealer = Sealer::start_in(&mut place, &KEY, &NONCE, AD).expect("started");
    assert_eq!(sealer.piece(MSG, &mut [0; 5]), Err(Error::LengthsDiffer));
    sealer.piece_in_place(&mut out).expect("sealed");
    assert_eq!((out, sealer.finish()), (ct.clone(), tag));

    let mut plain = [0; MSG.len()];
    let mut opener = Opener::start_in(&mut place, &KEY, &NONCE, AD, &mut plain).expect("started");
    opener.piece(&ct[..60]).expect("opened");
    assert_eq!(opener.piece(&ct), Err(Error::NoRoom));
    opener.piece(&ct[60..]).expect("opened");
    assert_eq!(opener.finish(&tag).expect("the right tag"), MSG);
}

#[test]
fn a_copied_mac_goes_on_by_itself() {
    let (mut place, mut other) = (Place::new(), Place::new());
    let mut first = Mac::<Tag32>::start_in(&mut place, &KEY, &NONCE);
    first.piece(&MSG[..33]).expect("taken");
    let mut second = first.copy_in(&mut other);
    second.piece(&MSG[33..]).expect("taken");
    first.check(&mac(&KEY, &NONCE, &MSG[..33]).expect("a MAC")).expect("the right tag");
    assert_eq!(mac(&KEY, &NONCE, MSG), Ok(second.finish()));
    assert!(is_over(&place.0) && is_over(&other.0));
}

#[test]
fn a_forgotten_session_is_erased_with_its_place() {
    let mut plain = [0; MSG.len()];
    let mut place = ManuallyDrop::new(Place::new());
    forget(Opener::<Tag16>::start_in(&mut place, &KEY, &NONCE, AD, &mut plain).expect("started"));
    assert!(!is_over(&place.0));
    // SAFETY: it is dropped once; its memory is there until the end of this function, and holds nothing but numbers.
    #[allow(unsafe_code)]
    unsafe {
        ManuallyDrop::drop(&mut place)
    };
    assert!(is_over(&place.0));
}

#[cfg(feature = "std")]
#[test]
fn to_move_a_session_does_not_move_its_record() {
    let mut sealer = Sealer::<Tag16>::start(&KEY, &NONCE, AD).expect("started");
    let at: *const Session = sealer.home.session();
    let mut moved = std::boxed::Box::new(sealer);
    assert_eq!(at, moved.home.session() as *const Session);
    moved.piece_in_place(&mut MSG.to_vec()).expect("sealed");
    assert_eq!(moved.finish(), sealed::<Tag16>().1);
}

/// Whether a type has a trait: the constant of the `impl` that asks for it comes before the trait's own.
macro_rules! has {
    ($type:ty: $trait:path) => {{
        #[allow(dead_code)] // one of the two constants is used
        trait Otherwise {
            const HAS: bool = false;
        }
        struct Asked<T>(PhantomData<T>);
        impl<T> Otherwise for Asked<T> {}
        #[allow(dead_code)]
        impl<T: $trait> Asked<T> {
            const HAS: bool = true;
        }
        Asked::<$type>::HAS
    }};
}

#[test]
fn a_session_can_be_sent_but_neither_copied_nor_shown() {
    use core::fmt::Debug;
    assert!(has!(Tag16: Copy) && has!(Tag16: Clone) && has!(Tag16: Debug), "a tag has all three");
    assert!(!has!(Session: Clone) && !has!(Session: Debug));
    assert!(!has!(Place: Clone) && !has!(Place: Debug) && has!(Place: Send));
    assert!(!has!(Sealer<'static, Tag16>: Clone) && !has!(Sealer<'static, Tag16>: Debug) && has!(Sealer<'static, Tag16>: Send));
    assert!(!has!(Opener<'static, Tag16>: Clone) && !has!(Opener<'static, Tag16>: Debug) && has!(Opener<'static, Tag16>: Send));
    // Of a MAC a copy is allowed, but only by name.
    assert!(!has!(Mac<'static, Tag16>: Copy) && !has!(Mac<'static, Tag16>: Debug) && has!(Mac<'static, Tag16>: Send));
}
