#![cfg_attr(feature = "std", doc = include_str!("../README.md"))]
#![cfg_attr(not(feature = "std"), doc = "Wodzerim's ciphers for Rust, without the standard library.")]
#![no_std]

#[cfg(any(feature = "std", test))]
extern crate std;

pub mod aegis128l;
mod error;

pub use error::Error;
