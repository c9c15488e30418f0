//! How the program reads: slow pipes, inputs that never end, and how much it takes.

use std::fs::File;
use std::io::{Seek, Write};
use std::path::Path;
use std::process::{Command, Stdio};
use std::time::Duration;

use super::process::{command, demand, feed, start, wait};
use super::record::{written, Record, MOST_AD, MOST_CT, MOST_INPUT};
use crate::difference::{Difference, Equal};
use crate::random::Random;

/// Records in writes of a few bytes, with pauses, so that each read gets a part.
pub fn slow(program: &Path) -> Equal {
    let mut random = Random::new(45);
    let mut count = 0;
    for (ad, msg, tag_size, most) in [(3, 20, 16, 1), (0, 0, 32, 1), (40, 700, 16, 30), (512, 4_096, 32, 200), (512, 4_112, 16, 300)] {
        for damage in [false, true] {
            let mut input = Record::new(&mut random, ad, msg, tag_size).sealed();
            if damage {
                random.damage(&mut input[35..]);
            }
            let mut child = start(command(program, Stdio::piped()))?;
            let mut at = 0;
            let mut parts = std::iter::from_fn(|| {
                let end = (at + 1 + random.below(most)).min(input.len());
                let part = input[at..end].to_vec();
                at = end;
                (!part.is_empty()).then_some(part)
            });
            feed(&mut child, &mut parts, Duration::from_millis(1));
            demand("slow pipe", &input, &written(&input), &wait(child))?;
            count += 1;
        }
    }
    Ok(count)
}

/// One byte too many in a pipe that stays open, and a pipe that never ends: it answers all the same.
pub fn too_long(program: &Path) -> Equal {
    let too_many = vec![16; MOST_INPUT + 1];
    let mut child = start(command(program, Stdio::piped()))?;
    let mut held = child.stdin.take().expect("piped");
    let sent = held.write_all(&too_many);
    sent.map_err(|e| Difference(format!("hub: closed its input within the first {} bytes: {e}", too_many.len())))?;
    let said = wait(child);
    drop(held);
    demand("a pipe that stays open after 4,676 bytes", &too_many, b"refused 11\n", &said)?;

    for part in [1, 1_000, 65_536] {
        let mut child = start(command(program, Stdio::piped()))?;
        feed(&mut child, &mut std::iter::repeat(vec![32; part]), Duration::ZERO);
        demand("a pipe that never ends", &[], b"refused 11\n", &wait(child))?;
    }
    Ok(4)
}

/// From a file the count of bytes that were taken can be seen.
pub fn bytes_read(program: &Path) -> Equal {
    let path = std::env::temp_dir().join(format!("wodzerim-hub-{}", std::process::id()));
    let took = |len: usize| -> std::io::Result<(u64, Vec<u8>)> {
        std::fs::write(&path, vec![16; len])?;
        let mut file = File::open(&path)?;
        let said = wait(command(program, Stdio::from(file.try_clone()?)).spawn()?);
        Ok((file.stream_position()?, said.out))
    };
    let lengths = [0, 34, MOST_INPUT - 1, MOST_INPUT, MOST_INPUT + 1, MOST_INPUT + 2, 8_192, 1_000_000];
    for len in lengths {
        let (read, out) = took(len).map_err(|e| Difference(format!("hub: on a file: {e}")))?;
        if read != len.min(MOST_INPUT + 1) as u64 || out != written(&vec![16; len]) {
            return Err(Difference(format!("hub: of a file of {len} bytes of 0x10 it read {read}, and wrote {out:02x?}")));
        }
    }
    std::fs::remove_file(&path).map_err(|e| Difference(format!("{}: {e}", path.display())))?;
    Ok(lengths.len() as u64)
}

/// The longest record and the longest refusal, with the stack limited by the shell.
pub fn small_stack(program: &Path) -> Equal {
    let mut random = Random::new(46);
    let right = Record::new(&mut random, MOST_AD, MOST_CT, 32).sealed();
    let mut wrong = right.clone();
    random.damage(&mut wrong[35..]);
    for input in [&right, &wrong] {
        let mut shell = Command::new("sh");
        shell.args(["-c", "ulimit -S -s 64 && exec \"$0\""]).arg(program);
        shell.stdin(Stdio::piped()).stdout(Stdio::piped()).stderr(Stdio::piped());
        let mut child = start(shell)?;
        feed(&mut child, &mut std::iter::once(input.clone()), Duration::ZERO);
        demand("within a stack of 64 KiB", input, &written(input), &wait(child))?;
    }
    Ok(2)
}
