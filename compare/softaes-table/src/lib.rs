//! Stand-in for the crate softaes, with the table round.

pub use rounds::table::{Block, SoftAesFast};
