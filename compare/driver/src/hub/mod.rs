//! The hub program: a process for each input, and what it writes compared with document 01 and the Rust.

mod cases;
mod pipes;
mod process;
mod record;

use std::path::Path;

use crate::difference::Difference;

pub use record::Record;

pub fn run(program: &Path, say: &mut dyn FnMut(&str, u64)) -> Result<(), Difference> {
    if !program.exists() {
        return Err(Difference(format!("{} is not there: `make hub` builds it", program.display())));
    }
    say("hub: every branch of the order, each side of each limit", cases::branches(program)?);
    say("hub: random and damaged inputs", cases::random(program)?);
    say("hub: input in small and slow writes", pipes::slow(program)?);
    say("hub: too long an input is answered without its end", pipes::too_long(program)?);
    say("hub: no byte read past the first too many", pipes::bytes_read(program)?);
    say("hub: within a stack of 64 KiB", pipes::small_stack(program)?);
    Ok(())
}
