//! What a comparison that failed has to say.

use std::fmt;

/// The first case in which the two sides were not equal: the input and both results, ready to print.
pub struct Difference(pub String);

/// How many cases of a kind were equal, or the first that was not.
pub type Equal = Result<u64, Difference>;

pub fn hex(bytes: &[u8]) -> String {
    bytes.iter().map(|b| format!("{b:02x}")).collect()
}

pub fn unhex(text: &str) -> Vec<u8> {
    (0..text.len() / 2).map(|i| u8::from_str_radix(&text[2 * i..2 * i + 2], 16).expect("hex")).collect()
}

/// Bytes shown as their length and hex.
pub struct Bytes<'a>(pub &'a [u8]);

impl fmt::Display for Bytes<'_> {
    fn fmt(&self, f: &mut fmt::Formatter<'_>) -> fmt::Result {
        write!(f, "{} bytes {}", self.0.len(), hex(self.0))
    }
}

/// Ends the comparison unless `ours` is what it should be.
pub fn same<T: PartialEq + fmt::Debug>(what: &str, input: &dyn fmt::Display, expected: T, ours: T) -> Result<(), Difference> {
    if expected == ours {
        return Ok(());
    }
    Err(Difference(format!("{what}\ninput:\n{input}\nexpected: {expected:02x?}\nours:     {ours:02x?}")))
}
