//! The answers of the library as errors.

use core::fmt;

/// Why a call was refused: one variant for each answer of the library but 0, which is done.
///
/// Each call says which of them it can give; the types rule out the others, such as a key of another length.
#[derive(Clone, Copy, Debug, PartialEq, Eq, Hash)]
#[non_exhaustive]
#[repr(u8)]
pub enum Error {
    /// 1: the tag has none of the cipher's sizes, or not the session's.
    WrongTagSize = 1,
    /// 2: the key has not the cipher's length.
    WrongKeySize = 2,
    /// 3: the nonce has not the cipher's length.
    WrongNonceSize = 3,
    /// 4: the associated data is over the limit.
    AdTooLong = 4,
    /// 5: the message's total would pass the limit.
    MessageTooLong = 5,
    /// 6: the output has less room than there are bytes to be written.
    NoRoom = 6,
    /// 7: the tag differs: forged or damaged, or another key, nonce or associated data.
    TagDiffers = 7,
    /// 8: the session is over, of another kind, or not well formed.
    NotLive = 8,
    /// 9: a sealing piece's two buffers differ in length.
    LengthsDiffer = 9,
    /// 10: the plaintext buffer's length is not the one recorded at the start.
    OtherBuffer = 10,
    /// 11: the hub program alone: its input has the wrong shape.
    WrongShape = 11,
}

impl Error {
    const ALL: [Error; 11] = [
        Error::WrongTagSize,
        Error::WrongKeySize,
        Error::WrongNonceSize,
        Error::AdTooLong,
        Error::MessageTooLong,
        Error::NoRoom,
        Error::TagDiffers,
        Error::NotLive,
        Error::LengthsDiffer,
        Error::OtherBuffer,
        Error::WrongShape,
    ];

    /// The answer's number, as C and the hub program give it.
    pub const fn number(self) -> u8 {
        self as u8
    }

    /// The error of an answer's number; `None` for 0 and for numbers that are no answer.
    ///
    /// ```
    /// use wodzerim::Error;
    /// assert_eq!(Error::from_number(7), Some(Error::TagDiffers));
    /// assert_eq!(Error::from_number(0), None);
    /// ```
    pub const fn from_number(number: u8) -> Option<Error> {
        match number {
            1..=11 => Some(Error::ALL[number as usize - 1]),
            _ => None,
        }
    }
}

impl fmt::Display for Error {
    fn fmt(&self, f: &mut fmt::Formatter<'_>) -> fmt::Result {
        let meaning = match self {
            Error::WrongTagSize => "the tag has none of the cipher's sizes, or not the session's",
            Error::WrongKeySize => "the key has not the cipher's length",
            Error::WrongNonceSize => "the nonce has not the cipher's length",
            Error::AdTooLong => "the associated data is over the limit",
            Error::MessageTooLong => "the message would pass the limit",
            Error::NoRoom => "the output has too little room",
            Error::TagDiffers => "the tag differs",
            Error::NotLive => "the session is over, of another kind, or not well formed",
            Error::LengthsDiffer => "the two buffers differ in length",
            Error::OtherBuffer => "the plaintext buffer has not the length recorded at the start",
            Error::WrongShape => "the record has the wrong shape",
        };
        write!(f, "refused {}: {meaning}", self.number())
    }
}

impl core::error::Error for Error {}

/// An answer as a result.
pub(crate) fn done(answer: u8) -> Result<(), Error> {
    match Error::from_number(answer) {
        Some(error) => Err(error),
        None if answer == 0 => Ok(()),
        None => unreachable!("the library has no answer {answer}"),
    }
}

#[cfg(test)]
mod tests {
    use super::{done, Error};
    use std::string::ToString;

    #[test]
    fn numbers_and_errors_are_one_to_one() {
        for number in 0..=255 {
            match Error::from_number(number) {
                Some(error) => assert_eq!((error.number(), done(number)), (number, Err(error))),
                None => assert!(number == 0 || number > 11),
            }
        }
        assert_eq!(done(0), Ok(()));
    }

    #[test]
    fn an_error_says_its_number_and_what_it_means() {
        let text = |error: &dyn std::error::Error| error.to_string();
        assert_eq!(text(&Error::TagDiffers), "refused 7: the tag differs");
    }
}
