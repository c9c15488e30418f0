//! Stand-in for the crate softaes, with the plain round.

pub use rounds::plain::{Block, SoftAesFast};
