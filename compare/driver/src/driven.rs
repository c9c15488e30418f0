//! Which functions of the header were called, so that none is left out.

use std::collections::BTreeMap;
use std::sync::Mutex;

use crate::difference::{same, Equal};

const HEADER: &str = include_str!("../../../include/aegis128l.h");

static CALLS: Mutex<BTreeMap<&str, u64>> = Mutex::new(BTreeMap::new());

/// One more call of this function.
pub fn count(name: &'static str) {
    *CALLS.lock().expect("no thread panics").entry(name).or_default() += 1;
}

/// The names that the header declares: each stands right before its arguments.
fn declared() -> Vec<&'static str> {
    let fronts = HEADER.split('(').map(|text| text.rsplit([' ', '\n', '*']).next().expect("one part at least"));
    let mut names: Vec<_> = fronts.filter(|name| name.starts_with("aegis128l_")).collect();
    names.sort_unstable();
    names
}

/// Every function of the header was called, and no other.
pub fn all() -> Equal {
    let calls = CALLS.lock().expect("no thread panics");
    let called: Vec<_> = calls.keys().copied().collect();
    same("the functions that were called", &"include/aegis128l.h", declared(), called)?;
    Ok(calls.len() as u64)
}
