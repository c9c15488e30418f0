//! Document 01's answers, from its table.

pub const DONE: u8 = 0;
pub const WRONG_TAG_SIZE: u8 = 1;
pub const WRONG_KEY_SIZE: u8 = 2;
pub const WRONG_NONCE_SIZE: u8 = 3;
pub const AD_TOO_LONG: u8 = 4;
pub const MESSAGE_TOO_LONG: u8 = 5;
pub const NO_ROOM: u8 = 6;
pub const TAG_DIFFERS: u8 = 7;
pub const NOT_LIVE: u8 = 8;
pub const LENGTHS_DIFFER: u8 = 9;
pub const OTHER_BUFFER: u8 = 10;
pub const WRONG_SHAPE: u8 = 11;
