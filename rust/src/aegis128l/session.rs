//! Sessions: one message in pieces of any size.
//!
//! A session's record holds secrets, so it stands in one place from its start to its end, where it becomes zeros: in a box, or
//! where the caller says. The values here hold only a pointer to it. To move them copies no secret, and to drop them before
//! the end aborts the session there.

use core::marker::PhantomData;
use core::mem::take;
#[cfg(feature = "std")]
use std::boxed::Box;

use super::ffi::Session;
use super::{calls, never_refused, Key, Nonce, Tag};
use crate::error::done;
use crate::Error;

/// Where a session's record stands, for programs that have no heap or want none: lent to a session until that has ended.
///
/// It holds zeros before a session, and after it.
///
/// ```
/// use wodzerim::aegis128l::{Place, Sealer, Tag16};
/// # fn main() -> Result<(), wodzerim::Error> {
/// let mut place = Place::new();
/// for record in 0..3 {
///     let mut buf = *b"34.2 kg";
///     let mut sealer = Sealer::start_in(&mut place, &[7; 16], &[record; 16], b"scale 258")?;
///     sealer.piece_in_place(&mut buf)?;
///     let tag: Tag16 = sealer.finish();
///     # let _ = tag;
/// }
/// # Ok(())
/// # }
/// ```
pub struct Place(Session);

impl Place {
    /// A place that holds no session.
    pub const fn new() -> Place {
        const OVER: usize = 3;
        Place(Session { blocks: [[0; 16]; 8], buf: [0; 32], fill: 0, ad_len: 0, msg_len: 0, tag_size: 0, mark: OVER, room: 0, written: 0 })
    }
}

impl Default for Place {
    fn default() -> Place {
        Place::new()
    }
}

/// If a session was forgotten (`core::mem::forget`) it still stands here.
impl Drop for Place {
    fn drop(&mut self) {
        // A start that is refused leaves zeros, whatever the record held; this one is refused for its tag size.
        let _ = calls::mac_start(&mut self.0, &[], &[], 0);
    }
}

/// A session's pointer to its record.
enum Home<'a> {
    Lent(&'a mut Place),
    #[cfg(feature = "std")]
    Boxed(Box<Place>),
}

impl Home<'_> {
    #[cfg(feature = "std")]
    fn boxed() -> Home<'static> {
        Home::Boxed(Box::default())
    }

    fn session(&mut self) -> &mut Session {
        match self {
            Home::Lent(place) => &mut place.0,
            #[cfg(feature = "std")]
            Home::Boxed(place) => &mut place.0,
        }
    }

    fn look(&self) -> &Session {
        match self {
            Home::Lent(place) => &place.0,
            #[cfg(feature = "std")]
            Home::Boxed(place) => &place.0,
        }
    }

    /// Ends the session if it is live, and erases what an opening wrote to `plain`.
    fn abort(&mut self, plain: &mut [u8]) {
        // 0, or 8 if it had ended: it is over either way.
        let _ = calls::abort(self.session(), plain);
    }
}

/// Seals one message in pieces of any size. Dropped before its finish, it is aborted.
///
/// ```
/// use wodzerim::aegis128l::{seal, Sealer, Tag16};
/// # fn main() -> Result<(), wodzerim::Error> {
/// let (key, nonce, msg) = ([7; 16], [1; 16], b"34.2 kg; 34.1 kg");
/// let mut ct = [0; 16];
/// let mut sealer = Sealer::start(&key, &nonce, b"scale 258")?;
/// sealer.piece(&msg[..9], &mut ct[..9])?;
/// sealer.piece(&msg[9..], &mut ct[9..])?;
/// let tag: Tag16 = sealer.finish();
///
/// let mut at_once = [0; 16];
/// assert_eq!(seal(&key, &nonce, b"scale 258", msg, &mut at_once), Ok(tag));
/// assert_eq!(ct, at_once);
/// # Ok(())
/// # }
/// ```
#[must_use = "a sealer that is dropped before its finish is aborted"]
pub struct Sealer<'a, T: Tag> {
    home: Home<'a>,
    tag: PhantomData<T>,
}

#[cfg(feature = "std")]
impl<T: Tag> Sealer<'static, T> {
    /// Starts to seal one message, with all of its associated data; the record stands in a box.
    ///
    /// # Errors
    /// [`Error::AdTooLong`].
    pub fn start(key: &Key, nonce: &Nonce, ad: &[u8]) -> Result<Self, Error> {
        Sealer::at(Home::boxed(), key, nonce, ad)
    }
}

impl<'a, T: Tag> Sealer<'a, T> {
    /// Starts to seal one message, with all of its associated data; the record stands in `place`.
    ///
    /// # Errors
    /// [`Error::AdTooLong`].
    pub fn start_in(place: &'a mut Place, key: &Key, nonce: &Nonce, ad: &[u8]) -> Result<Self, Error> {
        Sealer::at(Home::Lent(place), key, nonce, ad)
    }

    fn at(mut home: Home<'a>, key: &Key, nonce: &Nonce, ad: &[u8]) -> Result<Self, Error> {
        done(calls::seal_start(home.session(), key, nonce, ad, T::SIZE))?;
        Ok(Sealer { home, tag: PhantomData })
    }

    /// Seals the next piece into `out`, which has the same length.
    ///
    /// # Errors
    /// [`Error::LengthsDiffer`], [`Error::MessageTooLong`]; the piece counts for nothing, and the session goes on.
    pub fn piece(&mut self, msg: &[u8], out: &mut [u8]) -> Result<(), Error> {
        done(calls::seal_piece(self.home.session(), msg, out))
    }

    /// Seals the next piece in place.
    ///
    /// # Errors
    /// [`Error::MessageTooLong`]; the piece counts for nothing, and the session goes on.
    pub fn piece_in_place(&mut self, buf: &mut [u8]) -> Result<(), Error> {
        done(calls::seal_piece_in_place(self.home.session(), buf))
    }

    /// The tag of the whole message.
    #[must_use]
    pub fn finish(mut self) -> T {
        let mut tag = T::ZEROS;
        never_refused(calls::seal_finish(self.home.session(), tag.as_mut()));
        tag
    }
}

impl<T: Tag> Drop for Sealer<'_, T> {
    fn drop(&mut self) {
        self.home.abort(&mut []);
    }
}

/// Opens one message in pieces of any size, into a buffer that stays borrowed until the tag is right: before that nobody can read
/// it. Dropped before its finish, it is aborted, and what it wrote is erased.
///
/// ```
/// use wodzerim::aegis128l::{seal, Opener, Tag16};
/// # fn main() -> Result<(), wodzerim::Error> {
/// # let (key, nonce, mut ct) = ([7; 16], [1; 16], [0; 16]);
/// # let tag: Tag16 = seal(&key, &nonce, b"scale 258", b"34.2 kg; 34.1 kg", &mut ct)?;
/// let mut plain = [0; 40];
/// let mut opener = Opener::start(&key, &nonce, b"scale 258", &mut plain)?;
/// opener.piece(&ct[..5])?;
/// opener.piece(&ct[5..])?;
/// assert_eq!(opener.finish(&tag)?, b"34.2 kg; 34.1 kg");
/// # Ok(())
/// # }
/// ```
///
/// Before the finish the buffer cannot be read:
/// ```compile_fail,E0503
/// # use wodzerim::aegis128l::{Opener, Tag16};
/// let mut plain = [0; 40];
/// let mut opener = Opener::<Tag16>::start(&[7; 16], &[1; 16], b"", &mut plain).unwrap();
/// opener.piece(b"ciphertext").unwrap();
/// let unverified = plain[0];
/// opener.finish(&[0; 16]);
/// ```
#[must_use = "an opener that is dropped before its finish is aborted"]
pub struct Opener<'a, T: Tag> {
    home: Home<'a>,
    plain: &'a mut [u8],
    tag: PhantomData<T>,
}

impl<'a, T: Tag> Opener<'a, T> {
    /// Starts to open one message into `plain`; the record stands in a box.
    ///
    /// # Errors
    /// [`Error::AdTooLong`].
    #[cfg(feature = "std")]
    pub fn start(key: &Key, nonce: &Nonce, ad: &[u8], plain: &'a mut [u8]) -> Result<Self, Error> {
        Opener::at(Home::boxed(), key, nonce, ad, plain)
    }

    /// Starts to open one message into `plain`; the record stands in `place`.
    ///
    /// # Errors
    /// [`Error::AdTooLong`].
    pub fn start_in(place: &'a mut Place, key: &Key, nonce: &Nonce, ad: &[u8], plain: &'a mut [u8]) -> Result<Self, Error> {
        Opener::at(Home::Lent(place), key, nonce, ad, plain)
    }

    fn at(mut home: Home<'a>, key: &Key, nonce: &Nonce, ad: &[u8], plain: &'a mut [u8]) -> Result<Self, Error> {
        done(calls::open_start(home.session(), key, nonce, ad, T::SIZE, plain.len()))?;
        Ok(Opener { home, plain, tag: PhantomData })
    }

    /// Opens the next piece.
    ///
    /// # Errors
    /// [`Error::NoRoom`] if it is longer than what is left of the buffer, [`Error::MessageTooLong`]; the piece counts for nothing,
    /// and the session goes on.
    pub fn piece(&mut self, ct: &[u8]) -> Result<(), Error> {
        done(calls::open_piece(self.home.session(), ct, self.plain))
    }

    /// The message, if the tag is right.
    ///
    /// # Errors
    /// [`Error::TagDiffers`]: what was written is erased to zeros, and the rest of the buffer is as it was.
    pub fn finish(mut self, tag: &T) -> Result<&'a mut [u8], Error> {
        let opened = calls::open_finish(self.home.session(), tag.as_ref(), self.plain);
        done(opened.answer)?;
        Ok(&mut take(&mut self.plain)[..opened.count])
    }
}

impl<T: Tag> Drop for Opener<'_, T> {
    fn drop(&mut self) {
        self.home.abort(self.plain);
    }
}

/// The MAC of data that comes in pieces of any size. A copy goes on by itself. Dropped before its finish, it is aborted.
///
/// ```
/// use wodzerim::aegis128l::{mac, Mac, Tag32};
/// # fn main() -> Result<(), wodzerim::Error> {
/// let (key, nonce) = ([7; 16], [4; 16]);
/// let mut first = Mac::start(&key, &nonce);
/// first.piece(b"34.2 kg")?;
/// let mut both = first.clone();
/// both.piece(b"; 34.1 kg")?;
/// let tag: Tag32 = first.finish();
/// assert_eq!(mac(&key, &nonce, b"34.2 kg"), Ok(tag));
/// both.check(&mac(&key, &nonce, b"34.2 kg; 34.1 kg")?)?;
/// # Ok(())
/// # }
/// ```
#[must_use = "a MAC that is dropped before its finish is aborted"]
pub struct Mac<'a, T: Tag> {
    home: Home<'a>,
    tag: PhantomData<T>,
}

#[cfg(feature = "std")]
impl<T: Tag> Mac<'static, T> {
    /// Starts a MAC; the record stands in a box. The nonce is always given; the crate aegis takes sixteen zeros by default.
    pub fn start(key: &Key, nonce: &Nonce) -> Self {
        Mac::at(Home::boxed(), key, nonce)
    }
}

impl<'a, T: Tag> Mac<'a, T> {
    /// Starts a MAC; the record stands in `place`. The nonce is always given; the crate aegis takes sixteen zeros by default.
    pub fn start_in(place: &'a mut Place, key: &Key, nonce: &Nonce) -> Self {
        Mac::at(Home::Lent(place), key, nonce)
    }

    fn at(mut home: Home<'a>, key: &Key, nonce: &Nonce) -> Self {
        never_refused(calls::mac_start(home.session(), key, nonce, T::SIZE));
        Mac { home, tag: PhantomData }
    }

    /// A copy, whose record stands in `place`. Each goes on by itself.
    pub fn copy_in<'b>(&self, place: &'b mut Place) -> Mac<'b, T> {
        self.copy_at(Home::Lent(place))
    }

    fn copy_at<'b>(&self, mut home: Home<'b>) -> Mac<'b, T> {
        calls::copy(self.home.look(), home.session());
        Mac { home, tag: PhantomData }
    }

    /// Takes the next piece of the data.
    ///
    /// # Errors
    /// [`Error::MessageTooLong`]; the piece counts for nothing, and the session goes on.
    pub fn piece(&mut self, data: &[u8]) -> Result<(), Error> {
        done(calls::mac_piece(self.home.session(), data))
    }

    /// The MAC of all the data.
    #[must_use]
    pub fn finish(mut self) -> T {
        let mut tag = T::ZEROS;
        never_refused(calls::mac_finish(self.home.session(), tag.as_mut()));
        tag
    }

    /// Checks that `tag` is the MAC of all the data.
    ///
    /// # Errors
    /// [`Error::TagDiffers`].
    pub fn check(mut self, tag: &T) -> Result<(), Error> {
        done(calls::mac_finish_check(self.home.session(), tag.as_ref()))
    }
}

/// The copy's record stands in a box.
#[cfg(feature = "std")]
impl<T: Tag> Clone for Mac<'_, T> {
    fn clone(&self) -> Self {
        self.copy_at(Home::boxed())
    }
}

impl<T: Tag> Drop for Mac<'_, T> {
    fn drop(&mut self) {
        self.home.abort(&mut []);
    }
}

#[cfg(test)]
mod tests;
