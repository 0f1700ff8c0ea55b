//! The program `through SIDE WORKLOAD`: it measures what the calls of the library cost from Rust or from C. `through
//! opening VALUES` prints what a heap with room for this many values takes to open and to fill. `through reuse` prints
//! whether a key is used again, and whether two callers remove one value.
//!
//! It takes some of the options of `tool_bench`, and writes what that writes: counts to the standard output, and the
//! time to the standard error. The exit status is 2 if the words are wrong, and 3 if a call is refused.
mod c;
#[path = "../../src/gate.rs"]
mod gate;
mod opening;
mod options;
mod reuse;
mod rust;
mod side;
mod workloads;

use opening::Opening;
use options::Options;
use reuse::Reuse;
use std::process::ExitCode;
use std::time::Duration;

fn measured(words: &[&str]) -> Result<(Options, Duration, u64), String> {
    let (side, rest) = words.split_first().ok_or("usage: through rust|c WORKLOAD [--OPTION NUMBER]..")?;
    let options = Options::of(rest)?;
    let (time, sum) = match *side {
        "rust" => workloads::measure::<rust::Rust>(&options),
        "c" => workloads::measure::<c::C>(&options),
        other => return Err(format!("no side {other}")),
    };
    Ok((options, time, sum))
}

// What the words ask for is measured and written.
fn tell(words: &[&str]) -> Result<(), String> {
    if let ["opening", values] = words {
        let values = values.parse().map_err(|_| format!("{values} is no number of values"))?;
        println!("{}", Opening::of(values)?);
        return Ok(());
    }
    if words == ["reuse"] {
        println!("{}", Reuse::tried()?);
        return Ok(());
    }
    let (options, time, sum) = measured(words)?;
    println!("operations {}\nsum {sum}", options.operations * options.threads);
    eprintln!("nanoseconds {}", time.as_nanos());
    Ok(())
}

fn main() -> ExitCode {
    let words: Vec<String> = std::env::args().skip(1).collect();
    match tell(&words.iter().map(String::as_str).collect::<Vec<_>>()) {
        Ok(()) => ExitCode::SUCCESS,
        Err(why) => {
            eprintln!("through: {why}");
            ExitCode::from(2)
        }
    }
}
