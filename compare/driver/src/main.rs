//! Compares Wodzerim's archive and hub program with the Rust. The first difference ends it, with the input in hex.

mod answers;
mod bench;
mod difference;
mod driven;
mod guarded;
mod hub;
mod json;
mod oneshot;
mod oracle;
mod random;
mod recorded;
mod session;
mod standins;

use std::path::Path;
use std::process::ExitCode;
use std::time::Instant;

use difference::Difference;

const USAGE: &str = "usage: compare COMMAND
  standins            the stand-ins against FIPS 197, the Rust against the draft's program
  oneshot             the one-shots against the Rust
  session             the sessions against the Rust and document 01's rules
  hub PROGRAM         the hub program against document 01's rules and the Rust
  replay LIST         the recorded answers through all sides
  all PROGRAM LIST    all of these
  bench               sealing 64 KiB in place, against the Rust in one run
  instructions        the instructions of it, a byte and a call (under valgrind)
  seal SIDE BYTES     seals so many bytes once; SIDE is ours, plain or table
  record LIST VECTORS writes the recorded answers; VECTORS is the folder of the published ones
  sample FILE         writes the hub record of examples/";

/// A weighing as a scale would send it: scale 258, record 1.
fn sample() -> hub::Record {
    let mut nonce = [0; 16];
    nonce[..8].copy_from_slice(&258u64.to_le_bytes());
    nonce[8..].copy_from_slice(&1u64.to_le_bytes());
    let key = std::array::from_fn(|i| i as u8);
    let (ad, msg) = (b"scale 258".to_vec(), b"scale 258 record 1: 34.2 kg".to_vec());
    hub::Record { key, nonce, ad, msg, tag_size: 16 }
}

fn compare(arguments: &[&str]) -> Result<(), Difference> {
    let mut total = 0;
    let mut begin = Instant::now();
    let mut say = |what: &str, count: u64| {
        println!("{count:>9} equal  {what} ({:.0} s)", begin.elapsed().as_secs_f64());
        begin = Instant::now();
        total += if what.starts_with(' ') { 0 } else { count };
    };
    match arguments {
        ["standins"] => standins::run(&mut say)?,
        ["oneshot"] => oneshot::run(&mut say)?,
        ["session"] => session::run(&mut say)?,
        ["hub", program] => hub::run(Path::new(program), &mut say)?,
        ["replay", list] => recorded::run(Path::new(list), &mut say)?,
        ["all", program, list] => {
            standins::run(&mut say)?;
            recorded::run(Path::new(list), &mut say)?;
            oneshot::run(&mut say)?;
            session::run(&mut say)?;
            hub::run(Path::new(program), &mut say)?;
            say("functions of the header, each of them called", driven::all()?);
        }
        ["bench"] => {
            bench::run();
            return Ok(());
        }
        ["seal", side, bytes] => return bench::seal_once(side, bytes).map_err(Difference),
        ["record", list, vectors] => return recorded::write(Path::new(list), Path::new(vectors)).map_err(Difference),
        ["sample", file] => return std::fs::write(file, sample().sealed()).map_err(|e| Difference(format!("{file}: {e}"))),
        _ => return Err(Difference(USAGE.into())),
    }
    println!("{total:>9} equal  in all, none different");
    Ok(())
}

fn main() -> ExitCode {
    let arguments: Vec<String> = std::env::args().skip(1).collect();
    let arguments: Vec<&str> = arguments.iter().map(String::as_str).collect();
    match compare(&arguments) {
        Ok(()) => ExitCode::SUCCESS,
        Err(Difference(text)) => {
            eprintln!("{text}");
            ExitCode::FAILURE
        }
    }
}
