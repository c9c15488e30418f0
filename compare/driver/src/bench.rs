//! Sealing 64 KiB in place: the archive, and the Rust over both rounds, in turns within one run.

use std::time::Instant;

use crate::oracle::{plain, table};
use wodzerim::aegis128l::raw as calls;

const LENGTH: usize = 65_536;
const TURNS: usize = 15;
const SEALS: usize = 40;

const KEY: [u8; 16] = [7; 16];
const NONCE: [u8; 16] = [9; 16];

fn ours(buf: &mut [u8]) {
    let mut tag = [0; 16];
    assert_eq!(calls::seal_in_place(&KEY, &NONCE, &[], buf, &mut tag), 0);
}

fn rust_plain(buf: &mut [u8]) {
    plain::seal_in_place(&KEY, &NONCE, &[], buf, 16);
}

fn rust_table(buf: &mut [u8]) {
    table::seal_in_place(&KEY, &NONCE, &[], buf, 16);
}

/// What is measured, by its name.
const SIDES: [(&str, fn(&mut [u8])); 3] =
    [("Wodzerim (build/libwodzerim.a)", ours), ("the Rust, plain round", rust_plain), ("the Rust, table round", rust_table)];

/// Seals so many zero bytes once, for a count of instructions.
pub fn seal_once(side: &str, bytes: &str) -> Result<(), String> {
    let seal = match side {
        "ours" => ours,
        "plain" => rust_plain,
        "table" => rust_table,
        _ => return Err(format!("seal: '{side}' is none of ours, plain and table")),
    };
    let length: usize = bytes.parse().map_err(|_| format!("seal: '{bytes}' is no number of bytes"))?;
    seal(&mut vec![0; length]);
    Ok(())
}

/// Millions of bytes a second, in the fastest turn.
pub fn run() {
    let mut best = [f64::MAX; SIDES.len()];
    let mut buf = vec![0; LENGTH];
    for _ in 0..TURNS {
        for ((_, seal), best) in SIDES.iter().zip(&mut best) {
            let begin = Instant::now();
            for _ in 0..SEALS {
                seal(&mut buf);
            }
            *best = best.min(begin.elapsed().as_secs_f64());
        }
    }
    println!("sealing {LENGTH} bytes in place, 16-byte tag, no AD; best of {TURNS} turns of {SEALS}");
    let speed = best.map(|seconds| (LENGTH * SEALS) as f64 / 1e6 / seconds);
    for ((name, _), speed) in SIDES.iter().zip(speed) {
        println!("{name:<34} {speed:>8.1} MB/s");
    }
    println!("{:<34} {:>8.2}", "Wodzerim to the plain round", speed[0] / speed[1]);
    println!("{:<34} {:>8.2}", "Wodzerim to the table round", speed[0] / speed[2]);
}
